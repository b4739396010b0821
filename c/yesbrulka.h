/* The C surface of the Yesbrulka planning core.
**
** Every function answers for any numbers and for any memory that is lent to it. Unless it says otherwise it
** returns 0 or the number of a refusal, and on a refusal nothing that was lent has changed. A lent pointer points
** to memory that holds what it is declared to hold. A lent list is a pointer and the number of its elements; the
** pointer of a list of none may be NULL. A lent file is the list of its bytes.
**
** What a call may write overlaps nothing else that is lent to it. What is declared const it only reads: such lists
** may overlap each other, and one list may be lent twice in one call.
**
** Nothing is kept after a call and nothing is allocated. The functions share no state: they may be called from any
** thread at any time, as long as nobody else writes what is lent to a call, or reads what it may write, before it
** returns. A call needs at most 65,536 bytes of stack.
**
** Power is in whole watts, positive for discharge; energy is in whole joules; current is in whole milliamperes, mA.
*/
#ifndef YESBRULKA_H
#define YESBRULKA_H

#include <stddef.h>
#include <stdint.h>

#ifdef __cplusplus
extern "C" {
#endif

/* The refusals by their numbers. Those of a file are 1 to 9 and 12; their place and steps are those that yb_check_place
** and yb_check_steps return, and that yb_checked stores. A refusal of a call that takes no file, or of what is asked of
** a complete one, has place 0 and steps 0, but for 11: its place is the file's length and its steps are all.
*/
enum {
    YB_CUT_SHORT = 1, /* one or two bytes are left where tag and length are due, or the value runs past the end */
    YB_UNKNOWN_TAG = 2, /* the tag is unknown */
    YB_WRONG_LENGTH = 3, /* the length is not the tag's */
    YB_OUT_OF_ORDER = 4, /* the field may not come at this point; no voltage may in a file without a function */
    YB_OUT_OF_RANGE = 5, /* a value is outside its range, or a reading is of another kind than the mode goes by */
    YB_NOT_USABLE = 6, /* a reading does not convert to watts or mA, or a weather not to thousandths */
    YB_WRONG_COUNT = 7, /* the end field counts other steps than there are */
    YB_END_MISSING = 8, /* the bytes stop between two fields, before the end field */
    YB_AFTER_END = 9, /* there are bytes after the end field */
    YB_DOES_NOT_FIT = 10, /* wrong lengths of lists, a request beyond its rating, both signs, no such unit */
    YB_ROOM_TOO_SHORT = 11, /* the room is shorter than the result */
    YB_TOO_MANY = 12 /* the file is longer than 2,097,152 bytes, or has a step after its 65,535th */
};

/* What a refusal is called, in a few words that can stand in a line: the same in every program. Any other number, 0
** among them, is an unknown refusal.
*/
static inline const char *yb_refusal_words(uint32_t number)
{
    switch (number) {
    case YB_CUT_SHORT:
        return "field cut short";
    case YB_UNKNOWN_TAG:
        return "unknown tag";
    case YB_WRONG_LENGTH:
        return "wrong length";
    case YB_OUT_OF_ORDER:
        return "field out of order";
    case YB_OUT_OF_RANGE:
        return "value out of range";
    case YB_NOT_USABLE:
        return "reading not usable";
    case YB_WRONG_COUNT:
        return "wrong step count";
    case YB_END_MISSING:
        return "end field missing";
    case YB_AFTER_END:
        return "bytes after the end";
    case YB_DOES_NOT_FIT:
        return "does not fit";
    case YB_ROOM_TOO_SHORT:
        return "room too short";
    case YB_TOO_MANY:
        return "too many bytes or steps";
    default:
        return "unknown refusal";
    }
}

/* The modes of the controller. The first three go by watts; the last two are the first and the third by current. */
enum { YB_PEAK_SHAVE = 1, YB_SUPPORT = 2, YB_PEAK_SHAVE_LOW = 3, YB_I_PEAK_SHAVE = 4, YB_I_PEAK_SHAVE_LOW = 5 };

/* The phase choice: the sum of the three, one of them, or the largest or the smallest as signed numbers. */
enum {
    YB_PHASE_SUM = 0,
    YB_PHASE_1 = 1,
    YB_PHASE_2 = 2,
    YB_PHASE_3 = 3,
    YB_PHASE_LARGEST = 4,
    YB_PHASE_SMALLEST = 5
};

/* What a unit or an inverter gives first where its kVA rating does not hold both. */
enum { YB_WATTS_FIRST = 0, YB_VARS_FIRST = 1 };

/* The base of a function, of which its curve gives parts: the kVA rating, or what the watts leave of it. */
enum { YB_BASE_KVA = 0, YB_BASE_LEFT = 1 };

/* The phases that a unit's connection has; there may be no other number of them. */
enum { YB_ONE_PHASE = 1, YB_THREE_PHASES = 3 };

/* The most that there can be of units in a fleet, of inverters on a site, and of steps and bytes in a file. A fleet has
** at least one unit; a site may have no inverter.
*/
enum { YB_MOST_UNITS = 64, YB_MOST_INVERTERS = 64, YB_MOST_STEPS = 65535, YB_MOST_FILE_BYTES = 2097152 };

/* The points of a curve. */
enum { YB_LEAST_POINTS = 2, YB_MOST_POINTS = 16 };

/* The ranges of the values: each goes up to its most, and from where it is said; one with a sign from minus its most.
** Ratings in W and VA, var requests, targets, phase powers, phase currents and the load of a study have one most.
** Reserve and stored energy are from 0 to the rated. In modes 4 and 5 target and band are in mA.
*/
enum {
    YB_MOST_SECONDS = 86400, /* a step's length, from 1 */
    YB_MOST_POWER = 100000000, /* W, VA, var or mA: ratings from 1, load and current from 0, others with a sign */
    YB_MOST_IDLE_LOSS = 10000000, /* W, from 0 */
    YB_MOST_WEIGHT = 10000, /* from 1 */
    YB_LEAST_EFFICIENCY = 1000, /* parts in 10,000 */
    YB_MOST_EFFICIENCY = 10000,
    YB_MOST_BAND = 200000000, /* W or mA, from 0 */
    YB_MOST_FACTOR = 1000, /* thousandths, from 1 */
    YB_MOST_MEASURE = 300000000, /* W, with a sign; mA, from 0 */
    YB_MOST_VOLTS = 40000, /* of a connection, from 1 */
    YB_MOST_BUDGET = 10000, /* passes of a study, from 1 */
    YB_MOST_EDITION = 3, /* of a file, from 1 */
    YB_MOST_PARTS = 10000, /* in 10,000, from 0: cut-in, limit, y of an efficiency curve; y of a volt-var one, signed */
    YB_MOST_ARRAY_PARTS = 20000, /* in 10,000, from 0: y of a temperature curve */
    YB_MOST_VOLTAGE = 20000, /* ten-thousandths of per unit, from 0: of a step, and x of a volt-var curve */
    YB_MOST_THOUSANDTHS = 100000000 /* of irradiance, from 0; of temperature, signed; x of an inverter's curves */
};
#define YB_MOST_RATED UINT64_C(10000000000000) /* J, from 1 */

/* Check a run file of any length.
**
** yb_check returns 0 if the file is complete, or the number of its refusal, 1 to 9 or 12.
**
** Before its steps a file has the fleet, its units and the settings, and may have connections, inverters and one
** function, a base with a volt-var curve behind it. A step is a reading, before which may stand a weather and then, in
** a file with a function, a voltage; where either stands and no reading follows, the answer is 4 at what does. 5 is for
** a voltage above 20,000 ten-thousandths of per unit, for a base other than 0 and 1, and for a volt-var curve whose x,
** 0 to 20,000, do not rise or whose y are not -10,000 to 10,000.
**
** The size of the file is looked at first, then its fields from the first to the last; of several things wrong
** with one field, the answer is the first of: tag and length cut short, 2, 3, value cut short, 4, 12, and 5, 6
** or 7.
**
** yb_check_place returns the place in the file of the refused field, counted in bytes from 0. For 8 and 9 that
** is the place where a further field or the file's end was due, for a file that is too long 0, and for a
** complete file its length. yb_check_steps returns the number of steps before that place, which for a complete
** file is all of them.
**
** yb_checked answers all three in one pass over the file: it returns what yb_check does, and stores the place and the
** steps. Both are written whatever it returns: on a refusal too, for they are a part of the answer.
*/
uint32_t yb_check(const uint8_t *file, size_t file_len);
uint64_t yb_check_place(const uint8_t *file, size_t file_len);
uint32_t yb_check_steps(const uint8_t *file, size_t file_len);
uint32_t yb_checked(const uint8_t *file, size_t file_len, uint64_t *place, uint32_t *steps);

/* Find the value bytes of the field at a place of a file, for a support screen. Any place of any file will do;
** that of a refusal is the usual one.
**
** yb_value_start returns the place of the first value byte and yb_value_len the number of value bytes: as many
** as the field's length says, or fewer where the file ends before. Where the file ends within the tag and the
** length, or the place is past its end, there is no value: yb_value_len returns 0, and yb_value_start the smaller
** of the place and the file's length.
*/
uint64_t yb_value_start(const uint8_t *file, size_t file_len, uint64_t place);
uint64_t yb_value_len(const uint8_t *file, size_t file_len, uint64_t place);

/* Ask what a complete file says.
**
** yb_units returns the number of its units, 1 to 64, yb_inverters that of its inverters, 0 to 64, and yb_seconds the
** length of its steps, 1 to 86,400. Of a file that is not complete all three return 0.
**
** yb_settings stores the settings of the file: mode, target and band in W or in modes 4 and 5 in mA, factor in
** thousandths, and the phase choice. Returns 0, or the number of yb_check. The five are written only when 0 is
** returned.
**
** yb_unit stores the values of one unit, counted from 0, as they are before the first step: rated, reserve and stored
** energy; power rating, kVA rating, idle loss and var request; weight; the efficiencies of inverter, charge and
** discharge; priority. All are within the ranges that yb_step has for them.
**
** yb_var_limits stores how many vars that unit may provide and how many it may absorb, each 0 to its kVA rating; in a
** file of edition 1 both are the kVA rating.
**
** yb_connection stores the connection of that unit: its phases, 1 or 3, and its volts from phase to neutral, 1 to
** 40,000. Files of modes 4 and 5 have connections, others may.
**
** The three return 0, or the first of these that holds:
**     the number of yb_check
**    10  the file's fleet has no such unit or, for yb_connection, the file has no connections
** The twelve, and the two of each, are written only when 0 is returned.
*/
uint32_t yb_units(const uint8_t *file, size_t file_len);
uint32_t yb_inverters(const uint8_t *file, size_t file_len);
uint32_t yb_seconds(const uint8_t *file, size_t file_len);
uint32_t yb_settings(const uint8_t *file, size_t file_len, uint8_t *mode, int32_t *target, uint32_t *band,
    uint16_t *factor, uint8_t *phase);
uint32_t yb_unit(const uint8_t *file, size_t file_len, uint32_t unit, uint64_t *rated, uint64_t *reserve,
    uint64_t *stored, uint32_t *rating, uint32_t *kva, uint32_t *idle_loss, int32_t *var_request, uint16_t *weight,
    uint16_t *inverter, uint16_t *charge, uint16_t *discharge, uint8_t *priority);
uint32_t yb_var_limits(const uint8_t *file, size_t file_len, uint32_t unit, uint32_t *provide, uint32_t *absorb);
uint32_t yb_connection(const uint8_t *file, size_t file_len, uint32_t unit, uint8_t *phases, uint16_t *volts);

/* Run a file: take its steps in turn, each one pass of the controller (none where the reading is missing), one step of
** every unit and one of every inverter, and write the result file.
**
** In a file with a function the voltage of a step gives the vars that are requested of each unit and inverter, in that
** step and in those after it without a voltage: the curve's parts in 10,000 of its kVA rating (base 0), or of what its
** watts leave of that (base 1, and then watts come first in every step). Until the first voltage it is their own var
** request. Limits and kVA rating hold as ever.
**
** yb_run_room returns the bytes that the result needs, (40 x units + 29 x inverters) x steps + 7, or 0 for a file that
** is not complete.
**
** yb_run writes the result at the start of the room; the bytes of the room past it stay as they are. For each step
** and in it for each unit there are 40 bytes: tag 0x11, length 37 (two bytes), step from 0 (four), unit from 0 (one),
** request in W (four, signed), delivered kW (eight, a double), vars (four, signed), stored J (eight), loss J (eight).
** Behind those of a step's units there are 29 bytes for each inverter: tag 0x12, length 26, step from 0 (four),
** inverter from 0 (one), 1 if it is on, else 0 (one), delivered kW (eight, a double), vars (four, signed), DC power
** in W (eight). Last come the seven of the end: tag 0x1F, length 4, number of steps (four). All numbers are
** big-endian.
**
** Returns 0, or the first of these that holds:
**     the number of yb_check, whose place and steps are the check's
**    11  the room is shorter than the result; the place is then the file's length, and the steps are all of them
** The room is written only when 0 is returned.
*/
uint64_t yb_run_room(const uint8_t *file, size_t file_len);
uint32_t yb_run(const uint8_t *file, size_t file_len, uint8_t *room, size_t room_len);

/* Where each figure of a season stands in the list that yb_peaks fills, and how many there are. Steps are counted from
** 0; where a figure has a step, it is the first that has it.
*/
enum {
    YB_FIGURE_STEPS = 0, /* the steps */
    YB_FIGURE_MISSING = 1, /* those whose reading is missing; the others have a measure */
    YB_FIGURE_LEAST = 2, /* the smallest measure, W or in modes 4 and 5 mA */
    YB_FIGURE_LEAST_STEP = 3,
    YB_FIGURE_MOST = 4, /* the largest measure, W or mA */
    YB_FIGURE_MOST_STEP = 5,
    YB_FIGURE_OUTSIDE = 6, /* the steps that are outside by their measure */
    YB_FIGURE_NET_LEAST = 7, /* the smallest net measure, W; this and the next four are 0 in modes 4 and 5 */
    YB_FIGURE_NET_LEAST_STEP = 8,
    YB_FIGURE_NET_MOST = 9, /* the largest net measure, W */
    YB_FIGURE_NET_MOST_STEP = 10,
    YB_FIGURE_NET_OUTSIDE = 11, /* the steps that are outside by their net measure */
    YB_FIGURE_STORE = 12, /* the least that all units together hold after a step, J */
    YB_FIGURE_STORE_STEP = 13,
    YB_FIGURE_LOSS_MJ = 14, /* the loss of all units in all steps, whole megajoules (1,000,000 J) */
    YB_FIGURE_LOSS_J = 15, /* and the joules beyond them, 0 to 999,999 */
    YB_FIGURE_NOT_MET = 16, /* the steps in which some unit's request is not met */
    YB_FIGURES = 17
};

/* Tell the figures of a season: what a co-operative signs for, of a complete file and of a target that takes the place
** of the file's own. No room for a result is needed.
**
** The run is that of yb_run, with target in place of the file's target. The measure of a step is what the controller
** sees of its reading. Its net measure is the measure less what all units together give in that step: what the meter
** would have shown with the fleet at work, if the log was taken without it. A step is outside by either, if it is beyond
** the target in the direction that the mode works against, and the distance doubled exceeds the band: above the target
** in modes 1 and 4, below it in modes 3 and 5; in mode 2 measure and target together are above 0. A request is not met
** if it is not 0 and the unit's inverter gives or takes another power. Where no step has a measure, the figures of the
** measures are 0, and so are those of the store without any step.
**
** figures has YB_FIGURES elements; target is -100,000,000 to 100,000,000 W, or in modes 4 and 5 mA.
**
** Returns 0, or the first of these that holds:
**     the number of yb_check
**    10  figures has not YB_FIGURES elements
**     5  target is outside its range
** figures is written only when 0 is returned.
*/
uint32_t yb_peaks(const uint8_t *file, size_t file_len, int32_t target, int64_t *figures, size_t figures_len);

/* Convert a phase power from kW to whole watts.
**
** Stores in *watts the whole number nearest to 1000 times the exact value of kw; a value midway between
** two goes to the even one, as meters do. The result is within -100,000,000 to 100,000,000 W, and minus
** zero gives 0.
**
** Returns 0, or 6 if kw is a NaN or an infinity or if the result would lie outside that range. *watts is
** written only when 0 is returned.
*/
uint32_t yb_watts(double kw, int32_t *watts);

/* Make one controller pass over a fleet, by watts.
**
** mode is 1 PeakShave, 2 Support or 3 PeakShaveLow; target is -100,000,000 to 100,000,000 W, band 0 to
** 200,000,000 W, factor 1 to 1,000 thousandths, measure -300,000,000 to 300,000,000 W.
**
** The six lists have an element for each unit of the fleet, 1 to 64 of them: rated is 1 to 10^13 J, reserve
** and stored 0 to rated, rating 1 to 100,000,000 W, weight 1 to 10,000. A request is within its unit's
** rating in size, and no two are of different signs.
**
** Stores the new requests over the old ones, in *need the need in W that the pass found, and in *changed 1
** if a request is another than before, else 0. Where the need is shared, a unit that cannot help gets 0: in
** modes 1 and 2 one at or below its reserve, in mode 3 a full one. Its weight counts all the same.
**
** Returns 0, or the first of these that holds:
**    10  the lists are not of one length, or it is 0 or above 64
**     5  a value is outside its range
**    10  a request is beyond its unit's rating, or there are requests of both signs
** requests, *need and *changed are written only when 0 is returned.
*/
uint32_t yb_pass(uint8_t mode, int32_t target, uint32_t band, uint16_t factor, int64_t measure,
    const uint64_t *rated, size_t rated_len, const uint64_t *reserve, size_t reserve_len,
    const uint64_t *stored, size_t stored_len, const uint32_t *rating, size_t rating_len,
    const uint16_t *weight, size_t weight_len, int32_t *requests, size_t requests_len,
    int64_t *need, uint8_t *changed);

/* Make one controller pass over a fleet, by current.
**
** mode is 4 I-PeakShave or 5 I-PeakShaveLow; target is -100,000,000 to 100,000,000 mA, band 0 to 200,000,000 mA, factor
** 1 to 1,000 thousandths, measure 0 to 300,000,000 mA.
**
** The eight lists have an element for each unit of the fleet, 1 to 64 of them: six are those of yb_pass; phases is 1 or
** 3, volts, from phase to neutral, 1 to 40,000. What the measure is above the target becomes watts for each unit, by
** its phases times its volts, and so does the band; each unit then has a share of its own need.
**
** Stores the new requests, in W, over the old ones, in *need the need in mA that the pass found, measure less target,
** and in *changed 1 if a request is another than before, else 0. A unit that cannot help gets 0, as in yb_pass: mode 4
** is as mode 1 there, 5 as 3.
**
** Returns 0, or the first of these that holds:
**    10  the lists are not of one length, or it is 0 or above 64
**     5  a value is outside its range
**    10  a request is beyond its unit's rating, or there are requests of both signs
** requests, *need and *changed are written only when 0 is returned.
*/
uint32_t yb_pass_current(uint8_t mode, int32_t target, uint32_t band, uint16_t factor, int64_t measure,
    const uint64_t *rated, size_t rated_len, const uint64_t *reserve, size_t reserve_len,
    const uint64_t *stored, size_t stored_len, const uint32_t *rating, size_t rating_len,
    const uint16_t *weight, size_t weight_len, const uint8_t *phases, size_t phases_len,
    const uint16_t *volts, size_t volts_len, int32_t *requests, size_t requests_len, int64_t *need, uint8_t *changed);

/* Study where a fleet settles over a fixed load.
**
** Makes passes in mode 1 from requests of zero, each over a measure of the load less the sum of all
** requests, until one changes nothing or budget passes are made. load is 0 to 100,000,000 W, budget 1 to
** 10,000; the other values are as for yb_pass, in W. What requests holds before the call does not matter.
**
** Stores the last requests in requests, in *settled 1 if the last pass changed nothing, else 0, and in
** *passes the number of passes that changed a request.
**
** Returns 0, or the first of these that holds:
**    10  the lists are not of one length, or it is 0 or above 64
**     5  a value is outside its range
** requests, *settled and *passes are written only when 0 is returned.
*/
uint32_t yb_settle(int64_t load, int32_t target, uint32_t band, uint16_t factor, uint32_t budget,
    const uint64_t *rated, size_t rated_len, const uint64_t *reserve, size_t reserve_len,
    const uint64_t *stored, size_t stored_len, const uint32_t *rating, size_t rating_len,
    const uint16_t *weight, size_t weight_len, int32_t *requests, size_t requests_len,
    uint8_t *settled, uint32_t *passes);

/* Study where the fleet of a complete file settles over a fixed load.
**
** This is yb_settle over the file's units, as they are before the first step, and its target, band and factor; mode
** and phase choice of the file do not matter: target and band of a file of mode 4 or 5, which are in mA, are taken as
** W. requests has an element for each unit of the file.
**
** Returns 0, or the first of these that holds:
**     the number of yb_check
**    10  requests has not as many elements as the file has units
**     5  load or budget is outside its range
** requests, *settled and *passes are written only when 0 is returned.
*/
uint32_t yb_study(const uint8_t *file, size_t file_len, int64_t load, uint32_t budget, int32_t *requests,
    size_t requests_len, uint8_t *settled, uint32_t *passes);

/* Take one storage unit through one step of the given length, at a request in W.
**
** seconds is 1 to 86,400; rated is 1 to 10^13 J, reserve and stored 0 to rated; rating is 1 to 100,000,000 W,
** kva 1 to 100,000,000 VA, idle_loss 0 to 10,000,000 W, var_request -100,000,000 to 100,000,000 var, weight 1
** to 10,000; inverter, charge and discharge are efficiencies of 1,000 to 10,000 parts in 10,000; priority is 0
** for watts, 1 for vars. What the idling unit draws from the grid, idle_loss by the inverter's efficiency
** rounded up, is no more than kva. request is within rating in size.
**
** Stores in *watts and *vars what the unit gives, in *stored_after the energy that it then holds, and in *loss
** the energy lost, in J. A unit that cannot do what it is asked, or is asked nothing, idles: *watts is then its
** draw, negative, and the store stays as it is.
**
** yb_step_as does so for a unit of an edition, 1, 2 or 3. From edition 2 on the unit provides at most provide vars and
** absorbs at most absorb, each 0 to kva; in edition 1 the two are not looked at, and both limits are kva. In edition 3
** the idle loss is drawn at the grid connection, in every state, and not from the store: *watts is what the inverter
** gives less idle_loss, and the draw of an idling unit is not held against kva. yb_step is yb_step_as in edition 1.
**
** Both return 0, or the first of these that holds:
**     5  a value is outside its range
**    10  the request is beyond the rating
** The four are written only when 0 is returned.
*/
uint32_t yb_step(uint32_t seconds, uint64_t rated, uint64_t reserve, uint64_t stored,
    uint32_t rating, uint32_t kva, uint32_t idle_loss, int32_t var_request, uint16_t weight,
    uint16_t inverter, uint16_t charge, uint16_t discharge, uint8_t priority, int32_t request,
    int32_t *watts, int32_t *vars, uint64_t *stored_after, uint64_t *loss);
uint32_t yb_step_as(uint8_t edition, uint32_t seconds, uint64_t rated, uint64_t reserve, uint64_t stored,
    uint32_t rating, uint32_t kva, uint32_t idle_loss, int32_t var_request, uint16_t weight,
    uint16_t inverter, uint16_t charge, uint16_t discharge, uint8_t priority, uint32_t provide, uint32_t absorb,
    int32_t request, int32_t *watts, int32_t *vars, uint64_t *stored_after, uint64_t *loss);

/* Take one solar inverter through one step, in a weather.
**
** array is the rated power of its array, 1 to 100,000,000 W; kva is 1 to 100,000,000 VA; cut_in is 0 to 10,000 parts
** in 10,000 of kva, cut_out 0 to cut_in, limit 0 to 10,000 parts in 10,000 of array; var_request is -100,000,000 to
** 100,000,000 var; priority is 0 for watts, 1 for vars. on is 1 if the inverter was on before the step, 0 if it was
** off.
**
** Each curve is a list of x and a list of y with an element for each of its 2 to 16 points; every x is larger than
** the one before it. The warm curve gives the array's factor, 0 to 20,000 parts in 10,000, over the temperature,
** -100,000,000 to 100,000,000 thousandths of a degree C; the eff curve gives the efficiency, 0 to 10,000 parts in
** 10,000, over DC power per kva, 0 to 100,000,000 thousandths. Between two points a curve goes straight, and beyond
** its ends it holds the end value.
**
** irradiance in kW/m2 and temperature in degrees C each become the whole number of thousandths nearest to them, as
** yb_watts makes watts of kW: irradiance 0 to 100,000,000 of them, temperature -100,000,000 to 100,000,000.
**
** Stores in *on_after whether the inverter is on, 1 or 0, in *watts and *vars what it gives, and in *dc the DC power
** of its array in W. It turns on where *dc is above cut_in, off where it is below cut_out, and else stays as it was;
** one that is off gives 0 W and 0 var. *watts is 0 or more, and no more than *dc, than the limit and than kva.
**
** Returns 0, or the first of these that holds:
**    10  the two lists of a curve are not of one length, or it is below 2 or above 16
**     5  a value is outside its range, on among them, or the x of a curve do not rise
**     6  irradiance or temperature is a NaN or an infinity, or in thousandths outside its range; an irradiance less
**        than half a thousandth below 0 is 0, and is taken
** The four are written only when 0 is returned.
*/
uint32_t yb_solar(uint32_t array, uint32_t kva, uint16_t cut_in, uint16_t cut_out, uint16_t limit, int32_t var_request,
    uint8_t priority, const int32_t *warm_x, size_t warm_x_len, const int32_t *warm_y, size_t warm_y_len,
    const int32_t *eff_x, size_t eff_x_len, const int32_t *eff_y, size_t eff_y_len, double irradiance,
    double temperature, uint8_t on, uint8_t *on_after, int32_t *watts, int32_t *vars, uint64_t *dc);

/* Feed a run in chunks: a run file of any length, in pieces as they come to hand.
**
** All that the library keeps between two calls is state, yb_feed_size() bytes of the caller's memory. It has no
** addresses in it, so it may be copied, kept and taken up again. No two lent things of a call may overlap.
**
** yb_feed_start makes state ready for a file's first byte, whatever it held. yb_feed takes the next chunk, cut
** anywhere, of any length, 0 too, and stores the records of every step that the chunk completes at the start of room,
** and in *written how many bytes they are. yb_feed_end says that the file has ended; it alone stores the end record,
** 7 bytes. One call's results behind the other's are what yb_run gives for the whole file, which may be longer here
** than yb_run takes. yb_feed_room tells how many bytes yb_feed would store for a chunk; 0 if none, or if it would be
** refused for anything but room.
**
** yb_feed_place and yb_feed_steps tell the bytes and the steps taken so far or, once the run was refused, the place and
** the steps of the refusal, which are those of yb_check for the whole file; 0 for a state that is not well formed.
**
** yb_feed and yb_feed_end return 0, or the first of these that holds:
**    10  state is not yb_feed_size() long, or its bytes are no state; nothing is changed
**        the number that an earlier call returned, unless that was 10 or 11; after yb_feed_end returned 0, 9
**     1  (yb_feed_end) the file broke off within a field
**     8  (yb_feed_end) the file ended before its end field
**        (yb_feed) the number of the first fault in the chunk, as yb_check has it, though the size of a file is never
**        one; then nothing of this chunk is stored, not even of the steps before the fault
**    11  room is too short; nothing is changed, place and steps are as before, and the call can be made again
** room and *written are changed only when 0 is returned. yb_feed_start returns 0, or 10 if state is not
** yb_feed_size() long.
*/
uint64_t yb_feed_size(void);
uint32_t yb_feed_start(uint8_t *state, size_t state_len);
uint32_t yb_feed(uint8_t *state, size_t state_len, const uint8_t *chunk, size_t chunk_len, uint8_t *room,
    size_t room_len, uint64_t *written);
uint32_t yb_feed_end(uint8_t *state, size_t state_len, uint8_t *room, size_t room_len, uint64_t *written);
uint64_t yb_feed_room(const uint8_t *state, size_t state_len, const uint8_t *chunk, size_t chunk_len);
uint64_t yb_feed_place(const uint8_t *state, size_t state_len);
uint32_t yb_feed_steps(const uint8_t *state, size_t state_len);

/* What a rescue did at a place of a damaged file: it made a reading that does not convert a missing one; it put an end
** field in the place of all that came from there on; it left out the bytes behind the end field.
*/
enum { YB_MADE_MISSING = 1, YB_ENDED_HERE = 2, YB_LEFT_OUT = 3 };

/* The bytes of a change in the list of a rescue. */
enum { YB_CHANGE_BYTES = 17 };

/* Rescue a damaged file: keep of it what can be kept, as a file that yb_check accepts, and list what was changed.
**
** The size of the file and its fields up to the first step must be good. From there on a reading that does not convert
** becomes a missing one, and its step stays. At any other fault the rescue ends; all bytes from there on are
** dropped, and an end field with the number of steps before it takes their place. A weather and a voltage whose reading
** is lost that way are dropped with it: the change is then at the first of the two. Bytes behind a good end field are
** dropped. So a complete file comes back as it is.
**
** yb_rescue_room returns the bytes of the rescued file, yb_rescue_changes the number of changes, of which each takes 17
** bytes of the list, and yb_rescue_steps the steps of the rescued file. All three return 0 for a file that yb_rescue
** refuses for anything but room.
**
** yb_rescue writes the rescued file at the start of out and the changes at the start of list; the bytes past them stay
** as they are. The changes are in the order of their places. Each has its place in the damaged file (eight bytes), its
** kind (one) and how many bytes were dropped (eight); the numbers are big-endian. For a reading made missing these are
** 24 at its field; where an end field was put in they may be 0.
**
** Returns 0, or the first of these that holds:
**    12  the file is longer than 2,097,152 bytes; the place is 0, and so are the steps
**     the number of yb_check, whose place and steps are the check's, if that is for a field due before the steps: at a
**     fleet, unit or settings, at connections that the mode asks for, at a curve that an inverter or the function waits
**     for, at whatever stands there instead of these, and before any weather, voltage or reading also at a further
**     inverter, a curve, connections or a function
**    12  the rescued file would be longer than 2,097,152 bytes; the place is 0, and so are the steps
**    11  out is shorter than the rescued file, or list shorter than the changes; the place is then the file's length,
**        and the steps are those of yb_rescue_steps
** out and list are written only when 0 is returned.
*/
uint64_t yb_rescue_room(const uint8_t *file, size_t file_len);
uint64_t yb_rescue_changes(const uint8_t *file, size_t file_len);
uint32_t yb_rescue_steps(const uint8_t *file, size_t file_len);
uint32_t yb_rescue(const uint8_t *file, size_t file_len, uint8_t *out, size_t out_len, uint8_t *list, size_t list_len);

/* The verdict on a partner's result: it is right; some of it is wrong; it lacks what a field of the run file asks for.
*/
enum { YB_RIGHT = 0, YB_WRONG = 1, YB_LACKING = 2 };

/* Judge a partner's result: hold it beside what the run of a file writes.
**
** A result is right if it has just the bytes that yb_run writes. Else what is shown is the first field that is wrong:
** the first record of the run, of 40, 29 or 7 bytes, that does not stand in its place in the result. The bytes there
** are shown as they are, as many as the record has, or fewer where the result ends. If there are none, the field of the
** run file is shown that asks for the record, with its tag and length: the step's reading, a missing one too, or for
** the end record the end field. If all records stand there and bytes follow, these are shown.
**
** Stores in *verdict 0 if the result is right, 1 if bytes of the result are shown and 2 if a field of the run file is;
** in *start the place of the first byte that is shown, in that file, and in *len how many they are. For a right result
** both are 0.
**
** Returns 0, or the number of yb_check for the run file. *verdict, *start and *len are written only when 0 is returned.
*/
uint32_t yb_partner(const uint8_t *run, size_t run_len, const uint8_t *result, size_t result_len, uint8_t *verdict,
    uint64_t *start, uint64_t *len);

#ifdef __cplusplus
}
#endif

#endif
