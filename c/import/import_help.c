/* What the tool says of itself: how each command is called, what its columns and its words mean, and the exit statuses.
*/
#include <string.h>

#include "import.h"
#include "import_help.h"

static const char version[] = "0.1.0";

/* A command, how it is called, and what is to be known of it. */
struct part {
    const char *name, *usage, *text;
};

static const char about[] =
    "FILE is a run file as it is on a stick, RESULT the result file that run made of it. Files count\n"
    "steps, units and inverters from 0, and so do all columns; where there is room both are said: step\n"
    "611, the 612th row. Power is positive when a unit or an inverter gives and negative when a unit\n"
    "takes.\n"
    "\n"
    "FILE may come through a pipe, and so may RESULT where it is read: - is standard input. RESULT and\n"
    "OUT may be - where they are written: standard output, and the lines are then on standard error.\n"
    "FILE is read piece by piece, however long it is, and at a terminal a line says how far that is\n"
    "where FILE has more than 2,097,152 bytes. rescue, partner and peak take no more than these.\n"
    "\n"
    "check, summary and peak take many files: one that is refused or cannot be read stops no other.\n"
    "\n"
    "An option may stand anywhere among the words. -- ends the options: what comes behind it are words,\n"
    "however they begin. --help behind a command helps with it.\n"
    "\n"
    "A FILE of edition 3 is a plan made with the older storage model: a unit draws its idle loss at the\n"
    "grid, in every step. Its power is then that at the grid: what its own inverter gives less the idle\n"
    "loss, and negative if the idle loss is larger.\n"
    "\n"
    "A FILE of mode 4 or 5 goes by current: its readings, its target and its band are in amperes, and\n"
    "it says the phases and the volts of every unit's connection. Requests and power are in watts all\n"
    "the same.\n"
    "\n"
    "A FILE may have a function: a curve by which the voltage of a step gives the vars that are asked\n"
    "of every unit and inverter, in this step and in those after it that have no voltage. Before the\n"
    "first voltage each is asked for its own vars.\n";

static const char check_text[] =
    "Says of each FILE that it is complete, or what is wrong: which value it is, what it may be, where\n"
    "it stands, and what to do. Complete is said of the marks of a file: its fields are whole, in order\n"
    "and in their ranges, and its end is there. It is not said of what the meter saw: a reading in which\n"
    "a byte was changed can still be a number. So the smallest and the largest measure are said too,\n"
    "which is what the controller sees of a reading, and how many readings are missing.\n"
    "--json  an object a line for each FILE, for programs; docs/IMPORT.md has its keys\n";

static const char show_text[] =
    "Says what check says. Of a FILE that is refused it shows the field: its tag, its length and each\n"
    "value, what it is, what it may be, and its bytes; wrong stands before a value that is. Of a FILE\n"
    "that is complete it shows what FILE says: fleet, settings, units, connections, inverters and the\n"
    "function with their curves, and which readings are missing.\n";

static const char summary_text[] =
    "Runs each FILE and shows what a planner asks of its season. Of two words the second is a RESULT,\n"
    "which is held against the run of FILE, unless it begins like a stick, as every FILE does; a pipe\n"
    "and - are then a RESULT. In any other call all words are FILEs.\n"
    "\n"
    "First come the figures of the season. They are the library's, for the target that FILE has. The\n"
    "measure is what the controller sees of a reading: the sum of its phases, one of them, or the\n"
    "largest or the smallest, as the settings say. The net measure is the measure less the fleet's\n"
    "power in that step: what the meter would have shown with the fleet at work, if the log was taken\n"
    "without it. If the fleet was at work already when the log was taken, the net measure says nothing.\n"
    "A step counts as above (in modes 3 and 5 below) where it is so by more than half the band; in mode\n"
    "2 measure and target together are then above 0. The roof is no part of the fleet: the meter has\n"
    "seen its sun. A FILE of more than 2,097,152 bytes has no such figures.\n"
    "\n"
    "Then come columns, a line for each unit and one for the fleet. What is too wide for 100 columns\n"
    "comes below, beside the first column once more.\n"
    "request_kW   the largest request, in size\n"
    "out_kW       the most that was given in a step; in_kW the most that was taken\n"
    "out_kWh      the energy given; in_kWh the energy taken: an idle unit takes its draw; loss_kWh the\n"
    "             energy lost\n"
    "low_kWh      the least stored after a step, and at_step the first step after which it was so\n"
    "not_met      the steps in which the request was not 0 and the power was another than the request;\n"
    "             in edition 3 the power that the unit's own inverter gave or took counts. It does not\n"
    "             say that a peak was missed: the steps above, by the net measure, do.\n"
    "In the fleet's line requests, power and stored energy are sums over the units of a step; the\n"
    "energies are the sums of the lines above; not_met counts a step once.\n"
    "\n"
    "If FILE is of edition 2 or 3, whose units have var limits, a line for each unit follows:\n"
    "S_VA         the kVA rating of the unit, and request_var the vars that it is asked for; if FILE\n"
    "             has a function, before the first voltage\n"
    "provide_var  the most vars that it may provide, and absorb_var the most that it may absorb\n"
    "out_var      the most that it provided in a step, and in_var the most that it absorbed\n"
    "\n"
    "If FILE has inverters, a line for each of them and one for the roof:\n"
    "out_kW       the most that was given in a step, and at_step the first step that gave it, or - if\n"
    "             none did\n"
    "out_kWh      the energy given, and on_h the hours that the inverter was on\n"
    "unused_kWh   the DC energy that was not used: that of the array less the energy given\n"
    "In the roof's line power is the sum over the inverters of a step; the energies are the sums of the\n"
    "lines above; on_h counts a step once, in which any inverter was on.\n"
    "\n"
    "Last comes a line for each unit and inverter, with the word inverter before the number of the\n"
    "latter:\n"
    "high_var     the largest vars of a step, and low_var the smallest, by their signs: vars are\n"
    "             positive if they are provided; at_step is the first step that had them. Without a\n"
    "             step all are -.\n"
    "\n"
    "--json       an object a line for each FILE, for programs, in W, mA, J, s and var; all words are\n"
    "             then FILEs; docs/IMPORT.md has its keys\n";

static const char peak_text[] =
    "Runs each FILE at one target after another in place of its own, and says of each what came of it.\n"
    "FROM, TO and STEP are whole watts, or milliamperes for a FILE by current; FROM and TO may be below\n"
    "0, and there are at most 10,000 lines. Without the three some twenty round targets are tried: from\n"
    "where the fleet has nothing to do to where it has to give all that its units are rated for; and\n"
    "the target that FILE has. A word that is a whole number is no FILE: one of such a name is called\n"
    "./12, or comes behind --.\n"
    "\n"
    "target_kW    the target; by current target_A. held stands before the best target that held, own\n"
    "             before the one that FILE has.\n"
    "net_most_kW  the largest measure less the fleet's power, and at_step the first step that had it;\n"
    "             in mode 3 net_least_kW, the smallest\n"
    "above        the steps in which that is above the target by more than half the band; in mode 3\n"
    "             below; in mode 2 outside: it is above 0 by more than half the band with the target\n"
    "             added\n"
    "low_kWh      the least that the fleet stored after a step, and at_step the first step after which\n"
    "             it was so\n"
    "loss_kWh     the energy lost, and not_met the steps in which some unit's request was not met\n"
    "\n"
    "A target held if it has no step above, below or outside. The best one is the lowest in mode 1,\n"
    "where a low target asks the most of a fleet. In mode 3, which keeps the measure up, and in mode 2,\n"
    "where the need is the measure with the target added, a high target asks the most, and the best is\n"
    "the highest that held. An easier target than the best need not hold too: it is then said that not\n"
    "every one did. By current there is no net measure: these columns are -, and no target is said to\n"
    "have held. All this is for a log that was taken without the fleet, as help summary says of the net\n"
    "measure.\n"
    "\n"
    "--json       an object a line for each FILE, for programs, with all targets in it; docs/IMPORT.md\n"
    "             has its keys\n";

static const char table_text[] =
    "Columns parted by tabs: step, unit, request, delivered power, vars, stored energy, loss. If FILE\n"
    "has inverters, their lines follow those of the units in each step. They have the word inverter\n"
    "before the number, - for request, stored energy and loss, and in two columns more: on, which is 1\n"
    "if the inverter is on and 0 if it is off, and the DC power of its array; the units then have -\n"
    "there. The last three columns are the same for all lines of a step: the measure, in W or by\n"
    "current in mA, or the word missing; the power of all units together; and the measure less that\n"
    "power, or - where there is none.\n"
    "--csv   columns parted by commas, for a spreadsheet; what is - among tabs is then an empty cell\n";

static const char run_text[] =
    "Replaces a RESULT that is there. If it is killed (kill -9, a power cut) a file whose name begins\n"
    "with .import-unfinished may be left beside RESULT; delete it. The line comes when RESULT is in its\n"
    "place. To standard output nothing is written before all of FILE is accepted.\n";

static const char rescue_text[] =
    "Says what check says of FILE, then a line for each change, all of it when OUT is in its place. The\n"
    "fields before the steps must be good. From there on a reading that cannot be used becomes a\n"
    "missing one; at anything else that is wrong the stick ends, with a new end field that counts the\n"
    "steps before it. What is kept is as it was, byte for byte. OUT is written whole or not at all, as\n"
    "RESULT is; a complete FILE is written as it is. A rescued stick has lost data: keep the damaged\n"
    "one.\n";

static const char partner_text[] =
    "A RESULT is right if it is, byte for byte, what run gives. Of another one the first field that is\n"
    "wrong is shown: what is due there, and each value of theirs and of ours, with its bytes: same,\n"
    "differs, cut short (RESULT ends within it) or missing. If RESULT ends before the field, the\n"
    "reading or the end field of FILE is shown that asks for it; if it goes on behind its end, the\n"
    "first bytes that follow. table and summary say the same of a RESULT that is wrong, and show\n"
    "nothing else of it.\n";

static const char settle_text[] =
    "LOAD is 0 to 100000000, BUDGET the most passes, 1 to 10000; without it 10000. Target, band and\n"
    "factor are the file's, and the mode is 1 (PeakShave), whatever the file's: it studies by watts,\n"
    "and takes a target and band in mA as W. The reading left is the load less all requests. Of a study\n"
    "that its budget stopped a last line says how far it is from done; the gap left is the reading left\n"
    "less the target.\n";

static const char help_text[] =
    "Shows all of this, or the part of one command, as COMMAND --help does. import --version says which\n"
    "one this is.\n";

static const struct part parts[] = {
    {"check", "import check FILE..                check sticks, a line for each\n", check_text},
    {"show", "import show FILE                   check one, and show what it says, or the refused field\n", show_text},
    {"summary", "import summary FILE..              show what a planner asks of a season\n"
        "       import summary FILE RESULT         the same of a RESULT that run made of FILE\n", summary_text},
    {"peak", "import peak FILE.. [FROM TO STEP]  try other targets: which peak can be held\n", peak_text},
    {"table", "import table FILE RESULT           show every step of every unit and inverter\n", table_text},
    {"run", "import run FILE RESULT             run a stick; RESULT is written whole or not at all\n", run_text},
    {"rescue", "import rescue FILE OUT             keep what can be kept of a damaged stick, in OUT\n", rescue_text},
    {"partner", "import partner FILE RESULT         say whether a partner's result is right\n", partner_text},
    {"settle", "import settle FILE LOAD [BUDGET]   study where the fleet settles over LOAD watts\n", settle_text},
    {"help", "import help [COMMAND]              show what all this means\n", help_text},
};

enum { PARTS = sizeof parts / sizeof parts[0] };

static const char options_text[] =
    "options: --json with check, summary and peak; --csv with table; --help, --version; -- ends them\n";

static const char statuses[] =
    "Exit status: 0 all files are complete or, with rescue, OUT is written or, with partner, RESULT is\n"
    "right; 1 a file or a value was refused, or RESULT is wrong; 2 a wrong call, or a file that cannot\n"
    "be read or written. Of many files it is the worst.\n";

static void print_usage(FILE *out)
{
    for (int i = 0; i < PARTS; i++)
        fprintf(out, "%s%s", i == 0 ? "usage: " : "       ", parts[i].usage);
    fprintf(out, "%s", options_text);
}

int wrong_call(const char *why)
{
    fprintf(stderr, "import: %s\n", why);
    print_usage(stderr);
    return FAILED;
}

/* A word of the call is told as a part of one line. */
int wrong_option(const char *command, const char *option)
{
    fprintf(stderr, "import: %s has no option ", command);
    print_name(stderr, option);
    fprintf(stderr, "; a file of that name comes behind --\n");
    print_usage(stderr);
    return FAILED;
}

int no_words(void)
{
    print_usage(stderr);
    return FAILED;
}

static void print_part(const struct part *part)
{
    printf("usage: %s\n%s", part->usage, part->text);
}

int print_help(const char *command)
{
    for (int i = 0; i < PARTS && command != NULL; i++)
        if (strcmp(command, parts[i].name) == 0) {
            print_part(&parts[i]);
            return COMPLETE;
        }
    if (command != NULL)
        return wrong_call("there is no such command");
    print_usage(stdout);
    printf("\n%s", about);
    for (int i = 0; i < PARTS; i++) {
        printf("\n");
        print_part(&parts[i]);
    }
    printf("\n%s", statuses);
    return COMPLETE;
}

int print_version(void)
{
    printf("import of Yesbrulka, version %s\n", version);
    return COMPLETE;
}
