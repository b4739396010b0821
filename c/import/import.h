/* What the parts of the import tool share; each part says at its start what it does.
**
** What a stick says is asked of the library wherever a call tells it. What none does is read by one table, in
** import_named.c: the values of a field that is refused, and of a complete stick its inverters, its curves and its
** function; besides, the edition, the number of units and the mode of a stick that is refused, and in what a rescue
** gives the count of the end. The library's answers are proved, but nothing here trusts them with memory: a place or a
** size that cannot be about the file is a fault, is told, and ends the command.
*/
#ifndef IMPORT_H
#define IMPORT_H

#include <stddef.h>
#include <stdint.h>
#include <stdio.h>

/* What came of a command, which is its exit status. */
enum { COMPLETE = 0, REFUSED = 1, FAILED = 2 };

/* What is read of a stick here: a field's tag, and the two bytes of its length, to get to the next one. They are its
** header.
*/
enum { HEADER = 3 };
enum {
    FLEET_TAG = 0x01,
    UNIT_TAG = 0x02,
    SETTINGS_TAG = 0x03,
    POWER_TAG = 0x04,
    MISSING_TAG = 0x05,
    INVERTER_TAG = 0x06,
    CURVE_TAG = 0x07,
    WEATHER_TAG = 0x08,
    CURRENT_TAG = 0x09,
    CONNECTIONS_TAG = 0x0A,
    FUNCTION_TAG = 0x0B,
    VOLTAGE_TAG = 0x0C,
    END_TAG = 0x7F
};

/* What stands before a place: how many units and inverters, how many curves right before it, whether there is a
** function, the mode of the settings, 0 where there are none, and the last tag, which is 0 where nothing does.
*/
struct before {
    unsigned units, inverters, curves;
    int has_function;
    uint8_t mode, last;
};

/* Whether a mode goes by current; and a field is one that closes a step. */
int is_by_current(unsigned mode);
int is_reading(uint8_t tag);

/* A stick as far as it was fed to the library, and the library's answer. A caller gives its name, and that of a result
** that was given with it; and says whether the bytes of a refused field are to be shown, and whether all bytes are to
** be kept, to be fed again. All else is the feed's, and what it points to is there until the next stick is fed. Its
** len is what was fed, and size the bytes of all of the file, or 0 where nobody knows them: of a refused one that comes
** through a pipe the end may not have come.
**
** The head is a file by itself: the fields before the first step, and an end field. It is complete where the stick is,
** and what a stick says is asked of it. The window is a part of the file from a place on, and has what is known of the
** refused field. The units, 1 to 64, and the inverters, 0 to 64, are known from the first step on, and of a stick that
** was asked for as a complete one.
*/
struct stick {
    const char *name, *result;
    int is_shown, is_kept;
    uint64_t len, size, place;
    uint32_t number, steps;
    struct before before;
    const uint8_t *head, *window;
    size_t head_len, window_len;
    uint64_t window_from;
    uint8_t *kept;
    size_t kept_room;
    unsigned units, inverters;
};

/* The settings of a complete stick, one of its units, and the vars that this may provide and absorb. */
struct settings {
    uint8_t mode;
    int32_t target;
    uint32_t band;
    uint16_t factor;
    uint8_t phase;
};

struct unit {
    uint64_t rated, reserve, stored;
    uint32_t rating, kva, idle_loss;
    int32_t var_request;
    uint16_t weight, inverter, charge, discharge;
    uint8_t priority;
};

struct limits {
    uint32_t provide, absorb;
};

/* What a run gives at a time: the records of some steps, the first of which is said, one behind the other; or the end,
** which is of no steps.
*/
struct run {
    const uint8_t *bytes;
    size_t len;
    unsigned units, inverters;
    uint32_t first, steps;
};

/* What is done with it. */
struct taker {
    void (*take)(void *to, const struct run *run);
    void *to;
};

/* import_feed.c */

/* Open a file to be read, which is standard input where the name is a dash; NULL where it cannot be opened. */
int is_standard_input(const char *name);
FILE *open_input(const char *name);
void close_input(FILE *in);

/* The bytes of an open file, or 0 where nobody knows them. */
uint64_t input_size(FILE *in);

/* Why reading went wrong just now; and there is no memory for something, which is told. Gives FAILED. */
const char *reading_fault(void);
int no_memory(const char *name, const char *what);

/* Read a file into a room, as much of it as the room holds. Gives COMPLETE, or FAILED, which is told. */
int read_input(const char *name, uint8_t *room, size_t room_len, size_t *len);

/* Feed a file to the library, as much of it as is needed, and hand on what the run gives as it comes; there may be no
** taker. Gives what came of it; where it FAILED, that is told.
*/
int feed_file(struct stick *stick, const struct taker *taker);

/* The same for a file that is in memory, under the stick's name, without a taker. */
int feed_bytes(struct stick *stick, uint8_t *bytes, size_t len);

/* Feed once more a complete stick that was kept, and hand on what its run gives; and free what was kept. */
int feed_again(const struct stick *stick, const struct taker *taker);
void free_kept(struct stick *stick);

/* import_fields.c */

/* A big-endian number of that many bytes. */
uint64_t number_at(const uint8_t *bytes, int width);

/* The bytes of a field, of which tag and length are there; and count a field that is there whole among those that stand
** before the next one.
*/
size_t field_len(const uint8_t *field);
void count_field(struct before *before, const uint8_t *field);

/* What is known of the file from the place of a refusal on; and the length that the refused field says, where its
** header is there.
*/
const uint8_t *refused_bytes(const struct stick *stick);
size_t refused_len(const struct stick *stick);
unsigned said_length(const struct stick *stick);

/* Ask how many units and inverters there are, of a stick that has a step or is complete. Gives COMPLETE, or FAILED
** where the answer is a fault, which is told.
*/
int ask_site(struct stick *stick);

/* import_progress.c */

/* Show how far a command is, in a text of at most so many bytes: at a terminal alone, and in one line, which goes
** before anything else is said.
*/
enum { PROGRESS = 60 };
int has_progress(void);
void show_progress(const char *text);
void end_progress(void);

/* import_stick.c */

/* Print a name as a part of one line. */
void print_name(FILE *out, const char *name);

/* Print bytes, 16 a row, each row with the place of its first byte. */
void print_bytes(const uint8_t *bytes, uint64_t count, uint64_t place);

/* Say on standard error what is the matter with a file; give FAILED. */
int failed(const char *name, const char *what, const char *why);
int fault(const char *name);

/* The edition that the fleet names, which is a stick's first field; 0 where there is no fleet, or it is refused. From
** the edition of limits on a unit has var limits of its own, and its field ends with them. The edition of the older
** model is for plans made with the older storage model: a unit's idle loss is drawn at the grid, and never from its
** store.
*/
enum { LIMITS_EDITION = 2, OLDER_MODEL_EDITION = 3 };
unsigned edition_of(const struct stick *stick);

/* The units that the fleet counts; 0 where there is no fleet, or it is refused. */
unsigned fleet_units(const struct stick *stick);

/* What a mode is called, in brackets behind its number; nothing for a number that is no mode. */
const char *mode_name(unsigned mode);

/* Whether the first bytes of a file are those that every stick begins with; or the first byte is that of a result. */
int begins_like_a_stick(const uint8_t *bytes, size_t len);
int begins_like_a_result(const uint8_t *bytes, size_t len);

/* Print a file's line and, of a refused one, what to do; and the refused field's bytes where they are shown. */
void print_answer(const struct stick *stick);

/* The same of a refused one, and on standard error what was not done; give REFUSED. */
int refused(const struct stick *stick, const char *not_done);

/* Feed a file that has to be complete; of a refused one print the answer, and on standard error what was not done. */
int ask_complete(struct stick *stick, const struct taker *taker, const char *not_done);

/* Ask for what a complete stick says: its settings, and the values and the var limits of a unit, counted from 0. Gives
** COMPLETE, or FAILED where the library refuses that, which is a fault and is told.
*/
int ask_settings(struct settings *settings, const struct stick *stick);
int ask_unit(struct unit *unit, const struct stick *stick, unsigned which);
int ask_limits(struct limits *limits, const struct stick *stick, unsigned which);

/* import_advice.c */

/* What a refused file's line calls its refusal; and the lines below it, which say what happened and what to do. */
const char *refusal_name(const struct stick *stick);
void print_advice(const struct stick *stick);

/* import_show.c */

/* Print the refused field: its values by their names beside their bytes. */
void print_refused_field(const struct stick *stick);

/* import_text.c */

/* Print a number, its thousands parted by commas; and so many of something, with the word that follows one or several.
*/
void print_commas(uint64_t count);
void print_many(uint64_t count, const char *what, const char *of_one, const char *of_many);

/* Print which of something it is, counted from 1 as people do: "the 2nd unit"; as files count too: "unit 1, the 2nd
** unit"; and the same of a step: "step 611, the 612th row".
*/
void print_counted(unsigned count, const char *what);
void print_which(const char *what, unsigned which);
void print_the_step(uint32_t step);

/* import_target.c */

/* Where a file of a name is to be written, which is given for a word of the command: a link stays, and what it leads to
** is replaced. Gives a name to be freed, or NULL where nothing can be written there, which is told.
*/
char *target_of(const char *file, const char *name, const char *word);

/* import_whole.c */

/* A file that is written as its bytes come, and appears whole under its name or not at all; there is one at a time.
** Where something goes wrong nothing more is written, and the end of it tells why, with the command's word for the
** file, and gives FAILED; else the end gives the file its name, and COMPLETE. One that is not to be is dropped.
*/
struct whole {
    const char *name, *word, *last;
    int to, why;
};
void begin_whole(struct whole *whole, const char *name, const char *word);
void write_more(struct whole *whole, const uint8_t *bytes, size_t len);
int end_whole(struct whole *whole);
void drop_whole(struct whole *whole);

/* The lines about a file that is in its place are out; or it is told that only they are lost. Gives COMPLETE, or
** FAILED.
*/
int tell_written(const char *name);

/* What complete says of a file and what it does not, in a sentence. */
extern const char about_complete[];

/* The commands, with the words that follow them; check and show, import_look.c, have any number of these, and check
** can say the same for programs.
*/
int check_command(int count, char **words, int is_json);
int show_command(int count, char **words);
int run_command(const char *file, const char *result);
int rescue_command(const char *file, const char *out);
int partner_command(const char *file, const char *result);
int settle_command(const char *file, const char *load, const char *budget);
struct call;
int table_command(const struct call *call);
int summary_command(const struct call *call);
int peak_command(const struct call *call);

#endif
