/* Logs whose load was worked out by hand from ticket 14, for every function that is tried.

   Logs are in the notation of log_text.h, and figures likewise:

       5          a figure
       5*3        three of them
       1..4 4..1  1 2 3 4 4 3 2 1 */
#ifndef MODEL_KNOWN_LOADS_H
#define MODEL_KNOWN_LOADS_H

#include "lent_loads.h"
#include "log_text.h"

/* "An empty log gives 0 and no place." */
#define NO_PLACE UNTOUCHED_PLACE

struct known_load {
    const char *name;
    uint32_t w;
    const char *slots, *figures;
    uint32_t largest;
    uint64_t place;
};

/* A frame of 55 slots: a byte to one unit. */
#define FRAME "S 1 m525 s123+ cF+ l01+ d12+"

static const struct known_load known_loads[] = {
    {"load: the empty log gives 0 and no place", 64, "", "", 0, NO_PLACE},
    {"load: the empty log in the least window", 1, "", "", 0, NO_PLACE},
    {"load: the empty log in the widest window", 4096, "", "", 0, NO_PLACE},

    /* each slot alone and in every window: only idle is idle */
    {"load: a level 0 alone", 1, "0", "1", 1, 0},
    {"load: a level 1 alone", 1, "1", "1", 1, 0},
    {"load: a start alone", 1, "S", "1", 1, 0},
    {"load: an idle alone has the largest at its place", 1, "_", "0", 0, 0},
    {"load: one slot in a window of two", 2, "S", "1", 1, 0},
    {"load: one slot in the widest window", 4096, "0", "1", 1, 0},
    {"load: an idle alone in the widest window", 4096, "_", "0", 0, 0},
    {"load: starts count, one after the other", 3, "SSSS", "1 2 3 3", 3, 2},
    {"load: a start between idles counts", 2, "_S__", "0 1 1 0", 1, 1},
    {"load: levels without a start count", 4, "0_1_0", "1 1 2 2 2", 2, 2},
    {"load: levels behind a frame's end count", 3, "S1_0_1", "1 2 2 2 1 2", 2, 1},

    /* w = 1: each slot by itself */
    {"load: w = 1, a busy slot first", 1, "S01_1_", "1 1 1 0 1 0", 1, 0},
    {"load: w = 1, idle first", 1, "__S_1", "0 0 1 0 1", 1, 2},
    {"load: w = 1, idles only", 1, "___", "0 0 0", 0, 0},
    {"load: w = 2", 2, "1_01S_", "1 1 1 2 2 1", 2, 3},

    /* w about the log's length of five */
    {"load: w is half of the log", 2, "1_0S1", "1 1 1 2 2", 2, 3},
    {"load: w is two under the log's length", 3, "1_0S1", "1 1 2 2 3", 3, 4},
    {"load: w is one under the log's length", 4, "1_0S1", "1 1 2 3 3", 3, 3},
    {"load: w is the log's length", 5, "1_0S1", "1 1 2 3 4", 4, 4},
    {"load: w is one over the log's length", 6, "1_0S1", "1 1 2 3 4", 4, 4},
    {"load: w is far over the log's length", 4096, "1_0S1", "1 1 2 3 4", 4, 4},
    {"load: before w slots have come, those there are", 4, "11_1_1", "1 2 2 3 2 2", 3, 3},

    {"load: idles only", 3, "_____", "0*5", 0, 0},
    {"load: idles only, as many as the window", 5, "_____", "0*5", 0, 0},
    {"load: busy only", 3, "10S01", "1 2 3*3", 3, 2},
    {"load: busy only, as many as the window", 5, "10S01", "1..5", 5, 4},

    /* what comes and what leaves in the same slot: the four pairs, and each in a row */
    {"load: a busy slot leaves as a busy one comes", 3, "1__0__S", "1*7", 1, 0},
    {"load: an idle leaves as a busy slot comes", 2, "_10", "0 1 2", 2, 2},
    {"load: a busy slot leaves as an idle comes", 2, "01_", "1 2 1", 2, 1},
    {"load: an idle leaves as an idle comes", 2, "_1__", "0 1 1 0", 1, 1},
    {"load: one after the other", 3, "1_1__1", "1 1 2 1 1 1", 2, 2},
    {"load: a slot leaves after w slots, not before", 4, "1_____", "1*4 0 0", 1, 0},
    {"load: the window is not begun anew", 3, "__11__", "0 0 1 2 2 1", 2, 3},

    /* the first place of the largest */
    {"load: the largest is reached at place 0 and kept", 2, "1_1_1", "1*5", 1, 0},
    {"load: the largest is reached at place 0 alone", 1, "1____", "1 0*4", 1, 0},
    {"load: the largest is reached again", 2, "11__11__11", "1 2 1 0 1 2 1 0 1 2", 2, 1},
    {"load: the largest is kept while slots come and leave", 3, "11_11", "1 2 2 2 2", 2, 1},
    {"load: the largest is reached before w slots have come", 5, "11____1", "1 2 2 2 2 1 1", 2, 1},
    {"load: the largest is reached at the last place alone", 3, "_1_111", "0 1 1 2 2 3", 3, 5},
    {"load: the largest is reached at the last place again", 2, "11_11", "1 2 1 1 2", 2, 1},
    {"load: the largest after smaller ones that were reached twice", 3, "11_111__", "1 2 2 2 2 3 2 1", 3, 5},
    {"load: the largest before smaller ones", 3, "111_1", "1 2 3 2 2", 3, 2},
    {"load: the largest is at the last but one place", 2, "_1_11_", "0 1 1 1 2 1", 2, 4},

    {"load: a frame between idles", 64, "_*20 " FRAME " _*20", "0*20 1..55 55*9 54..44", 55, 74},
    {"load: a frame that is longer than the window", 10, "_*3 " FRAME " _*12", "0*3 1..10 10*45 9..0 0 0", 10, 12},
    {"load: two frames and an idle behind each", 112, FRAME " _ " FRAME " _", "1..55 55 56..110 110", 110, 110},
    {"load: two frames in a window one slot shorter", 111, FRAME " _ " FRAME " _", "1..55 55 56..110 109", 110, 110},
    {"load: two frames in a window two slots shorter", 110, FRAME " _ " FRAME " _", "1..55 55 56..109 109 108", 109,
     109},

    /* figures and places over a byte, and the widest windows */
    {"load: w = 255, 300 busy slots", 255, "1*300", "1..255 255*45", 255, 254},
    {"load: w = 256, 300 busy slots", 256, "0*300", "1..256 256*44", 256, 255},
    {"load: w = 257, 300 busy slots", 257, "S*300", "1..257 257*43", 257, 256},
    {"load: w = 256, reached behind 300 idles", 256, "_*300 1*257", "0*300 1..256 256", 256, 555},
    {"load: w = 4,095, 5,000 busy slots", 4095, "1*5000", "1..4095 4095*905", 4095, 4094},
    {"load: w = 4,096, 5,000 busy slots", 4096, "1*5000", "1..4096 4096*904", 4096, 4095},
    {"load: w = 4,096, 4,095 busy slots", 4096, "0*4095", "1..4095", 4095, 4094},
    {"load: w = 4,096, 4,096 busy slots", 4096, "0*4096", "1..4096", 4096, 4095},
    {"load: w = 4,096, 4,097 busy slots", 4096, "0*4097", "1..4096 4096", 4096, 4095},
    {"load: w = 4,096, slots that leave 4,096 slots later", 4096, "1*100 _*4096 S*10", "1..100 100*3996 99..0 1..10",
     100, 99},
    {"load: w = 4,096, reached at place 8,191 alone", 4096, "_*4096 1*4096 _", "0*4096 1..4096 4095", 4096, 8191},
    {"load: w = 4,096, idles only", 4096, "_*5000", "0*5000", 0, 0},
    {"load: w = 1, 5,000 slots of which the last alone is busy", 1, "_*4999 S", "0*4999 1", 1, 4999},
    {"load: w = 2, 9,000 busy slots", 2, "01*8999", "1 2*8999", 2, 1},
};

enum { KNOWN_LOADS = sizeof known_loads / sizeof *known_loads };

struct refused_load {
    const char *name;
    uint32_t number;
    size_t missing;   /* places by which the list of figures is too short */
    uint32_t w;
    const char *slots;
};

static const struct refused_load refused_loads[] = {
    {"load: 12: one place too few", REFUSED_SHORT_LIST, 1, 2, "1_0S1"},
    {"load: 12: no place", REFUSED_SHORT_LIST, 5, 2, "1_0S1"},
    {"load: 12: no place for one slot", REFUSED_SHORT_LIST, 1, 1, "1"},
    {"load: 12: as many places as busy slots", REFUSED_SHORT_LIST, 2, 3, "1__1"},
    {"load: 12: as many places as the window", REFUSED_SHORT_LIST, 2, 3, "1_0S1"},
    {"load: 12: as many places as slots behind the first window", REFUSED_SHORT_LIST, 2, 2, "1_0S1"},
    {"load: 12 comes before 25, w = 0", REFUSED_SHORT_LIST, 1, 0, "1_0S1"},
    {"load: 12 comes before 25, w = 4,097", REFUSED_SHORT_LIST, 1, 4097, "1_0S1"},
    {"load: 12 comes before 16", REFUSED_SHORT_LIST, 1, 2, "#4 _0S1"},
    {"load: 12 comes before 16 at the place that is missing", REFUSED_SHORT_LIST, 1, 2, "1_0S#4"},
    {"load: 12 comes before 25 and 16", REFUSED_SHORT_LIST, 1, 0, "#4 _0S1"},
    {"load: 12 comes before 25 and 16, without a place", REFUSED_SHORT_LIST, 5, 0xFFFFFFFF, "1_0S#FFFFFFFF"},

    {"load: 25: w = 0", REFUSED_WINDOW, 0, 0, "1_0S1"},
    {"load: 25: w = 4,097", REFUSED_WINDOW, 0, 4097, "1_0S1"},
    {"load: 25: w = 4,097 and a log that is longer", REFUSED_WINDOW, 0, 4097, "1*5000"},
    {"load: 25: w = 8,192", REFUSED_WINDOW, 0, 8192, "1_0S1"},
    {"load: 25: w = 65,537", REFUSED_WINDOW, 0, 65537, "1_0S1"},
    {"load: 25: w = 80000001H", REFUSED_WINDOW, 0, 0x80000001, "1_0S1"},
    {"load: 25: w = FFFFFFFFH", REFUSED_WINDOW, 0, 0xFFFFFFFF, "1_0S1"},
    {"load: 25: w = 0 with idles only", REFUSED_WINDOW, 0, 0, "_____"},
    {"load: 25 in an empty log: w = 0", REFUSED_WINDOW, 0, 0, ""},
    {"load: 25 in an empty log: w = 4,097", REFUSED_WINDOW, 0, 4097, ""},
    {"load: 25 in an empty log: w = 65,537", REFUSED_WINDOW, 0, 65537, ""},
    {"load: 25 in an empty log: w = FFFFFFFFH", REFUSED_WINDOW, 0, 0xFFFFFFFF, ""},
    {"load: 25 comes before 16, w = 0", REFUSED_WINDOW, 0, 0, "#4 _0S1"},
    {"load: 25 comes before 16, w = 4,097", REFUSED_WINDOW, 0, 4097, "1_0S#FFFFFFFF"},

    {"load: 16: a word of 4 in the first place alone", REFUSED_NO_SLOT, 0, 2, "#4 _0S1"},
    {"load: 16: a word of 4 in a middle place alone", REFUSED_NO_SLOT, 0, 2, "1_#4 S1"},
    {"load: 16: a word of 4 in the last place alone", REFUSED_NO_SLOT, 0, 2, "1_0S#4"},
    {"load: 16: the only word", REFUSED_NO_SLOT, 0, 1, "#4"},
    {"load: 16: every word", REFUSED_NO_SLOT, 0, 2, "#4 #5 #6 #7"},
    {"load: 16: an idle with a stray bit", REFUSED_NO_SLOT, 0, 2, "1_#103"},
    {"load: 16: an idle of another kind", REFUSED_NO_SLOT, 0, 2, "1_#10000003 1"},
    {"load: 16: a level with the top bit", REFUSED_NO_SLOT, 0, 2, "1_#80000001 1"},
    {"load: 16: a word of FFFFFFFFH", REFUSED_NO_SLOT, 0, 2, "1_#FFFFFFFF"},
    {"load: 16: before the latest w", REFUSED_NO_SLOT, 0, 1, "#4 _1"},
    {"load: 16: behind the first w", REFUSED_NO_SLOT, 0, 1, "_1#4"},
    {"load: 16: among idles only", REFUSED_NO_SLOT, 0, 3, "__#7 __"},
    {"load: 16: at place 5,000 of a log, in the widest window", REFUSED_NO_SLOT, 0, 4096, "1*5000 #4"},
};

enum { REFUSED_LOADS = sizeof refused_loads / sizeof *refused_loads };

/* Adds one item of the text to the figures and gives where the text goes on. */
static inline const char *put_figure(uint32_t *figures, size_t *len, const char *text)
{
    char *rest;
    uint32_t figure = (uint32_t)strtoul(text, &rest, 10), to = figure;
    unsigned long times = *rest == '*' ? strtoul(rest + 1, &rest, 10) : 1;
    if (*rest == '.')
        to = (uint32_t)strtoul(rest + 2, &rest, 10);
    for (; times > 1; times--)
        figures[(*len)++] = figure;
    for (; figure != to; figure += figure < to ? 1 : -1u)
        figures[(*len)++] = figure;
    figures[(*len)++] = to;
    return *rest == ' ' ? rest + 1 : rest;
}

static inline size_t put_figures(uint32_t *figures, const char *text)
{
    size_t len = 0;
    while (*text)
        text = put_figure(figures, &len, text);
    return len;
}

/* The log of a text, with a list of figures of the same length. */
static inline void put_windowed_log(struct windowed_log *log, uint32_t w, const char *text)
{
    struct log slots = {.slots = log->slots, .room = MOST_LOAD_SLOTS};
    put_text(&slots, text);
    *log = (struct windowed_log){.w = w, .slots = slots.slots, .len = slots.len, .figures_len = slots.len};
}

/* Taken with as many places as slots and with some to spare, what was worked out is written and nothing else. */
static inline bool known_load_holds(const struct known_load *k, load_of_slots *load_of)
{
    static uint32_t slots[MOST_LOAD_SLOTS], figures[MOST_LOAD_SLOTS];
    static struct load load;
    struct windowed_log log = {.slots = slots};
    put_windowed_log(&log, k->w, k->slots);
    bool holds = put_figures(figures, k->figures) == log.len;
    for (; log.figures_len <= log.len + MOST_SPARE && holds; log.figures_len += MOST_SPARE) {
        load_lent(load_of, &log, &load);
        holds = load.result == TAKEN && load.largest == k->largest && load.place == k->place
                && memcmp(load.figures, figures, log.len * sizeof *figures) == 0 && log_kept(&log, &load)
                && words_untouched(load.figures, log.len, figures_watched(&log));
    }
    return holds;
}

/* Also where there are places to spare. */
static inline bool refused_load_holds(const struct refused_load *k, load_of_slots *load_of)
{
    static uint32_t slots[MOST_LOAD_SLOTS];
    static struct load load;
    struct windowed_log log = {.slots = slots};
    put_windowed_log(&log, k->w, k->slots);
    size_t most = k->missing > 0 ? log.len - k->missing : log.len + MOST_SPARE;
    bool holds = true;
    for (log.figures_len = log.len - k->missing; log.figures_len <= most && holds; log.figures_len++) {
        load_lent(load_of, &log, &load);
        holds = load_refused(&log, &load, k->number);
    }
    return holds;
}

/* Every known case with its name, for whoever reports them. */
static inline void try_known_loads(load_of_slots *load_of, void (*tell)(const char *name, bool holds))
{
    for (size_t i = 0; i < KNOWN_LOADS; i++)
        tell(known_loads[i].name, known_load_holds(&known_loads[i], load_of));
    for (size_t i = 0; i < REFUSED_LOADS; i++)
        tell(refused_loads[i].name, refused_load_holds(&refused_loads[i], load_of));
}

#endif
