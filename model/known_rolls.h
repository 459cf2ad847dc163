/* Lives of a roll that were worked out by hand from ticket 10 and document 01, for all functions that are tried.

   A request is written as it is kept, in four digits: 1525 is an ordinary one of 525H, 0525 a broadcast. Calls:

       +1525          it joins
       -1525          it leaves
       +1000..1031    all from the first to the last, one after the other
       +2,525         it joins with bit 2 and address 525H
       ?1525  ?none   what is shown
       !              the roll is begun
       +1525=22       .. and is refused with that number
       !@100=100      .. with a roll of so many bytes

   A roll is its count and its requests, of which 1525*3 are three; those past the last are 0, or the one behind a bar:

       2: 1525 1526   255: 1000..1031   1: 1525 | FFFF */
#ifndef MODEL_KNOWN_ROLLS_H
#define MODEL_KNOWN_ROLLS_H

#include <stdlib.h>

#include "lent_rolls.h"

struct known_roll {
    const char *name;
    const char *roll;    /* before the first call; NULL: it is begun by the function that is tried */
    const char *calls;
    const char *left;
};

#define FIFTY "50: 1000..1031"

static const struct known_roll known_rolls[] = {
    {"roll: begun empty, none is shown", NULL, "?none", "0:"},
    {"roll: an empty roll goes on showing none", NULL, "?none ?none", "0:"},
    {"roll: begun anew where fifty are there", FIFTY, "! ?none", "0:"},
    {"roll: begun in bytes of any kind", "165: A5A5*50", "! ?none", "0:"},
    {"roll: begun anew, those that were there can join", FIFTY, "! +1000 +1031 ?1000", "2: 1000 1031"},

    /* "they join when made" */
    {"roll: one joins and is shown", NULL, "+1525 ?1525", "1: 1525"},
    {"roll: a broadcast joins and is shown", NULL, "+0525 ?0525", "1: 0525"},
    {"roll: the lowest of all, broadcast 000H, is not none", NULL, "+0000 ?0000", "1: 0000"},
    {"roll: ordinary 000H", NULL, "+1000 ?1000", "1: 1000"},
    {"roll: broadcast FFFH", NULL, "+0FFF ?0FFF", "1: 0FFF"},
    {"roll: the highest of all, ordinary FFFH", NULL, "+1FFF ?1FFF", "1: 1FFF"},
    {"roll: those that join stand in their order", NULL, "+1003 +1001 +1002", "3: 1003 1001 1002"},
    {"roll: fifty join", NULL, "+1000..1031 ?1000", FIFTY},
    {"roll: fifty join, the highest first", NULL, "+1031..1000 ?1000", "50: 1031..1000"},
    {"roll: showing changes nothing", "3: 1003 1001 1002", "?1001 ?1001 ?1001", "3: 1003 1001 1002"},

    /* "Among contenders a broadcast beats an ordinary frame, then the lowest address wins" */
    {"roll: 0FFH is shown before 100H", NULL, "+1100 ?1100 +10FF ?10FF", "2: 1100 10FF"},
    {"roll: 0FFH is shown before 100H that joins later", NULL, "+10FF ?10FF +1100 ?10FF", "2: 10FF 1100"},
    {"roll: broadcast FFFH is shown before ordinary 000H", NULL, "+1000 ?1000 +0FFF ?0FFF", "2: 1000 0FFF"},
    {"roll: .. and before 000H that joins later", NULL, "+0FFF ?0FFF +1000 ?0FFF", "2: 0FFF 1000"},
    {"roll: of two broadcasts the lower address", NULL, "+0800 +1001 +07FF ?07FF", "3: 0800 1001 07FF"},
    {"roll: a broadcast is shown before fifty but one", "49: 1000..1030", "+0FFF ?0FFF", "50: 1000..1030 0FFF"},
    {"roll: each level of the address decides", NULL,
     "+1800 ?1800 +17FF ?17FF +1400 ?1400 +13FF ?13FF +1200 ?1200 +11FF ?11FF +1100 ?1100 +10FF ?10FF +1080 ?1080 "
     "+107F ?107F +1040 ?1040 +103F ?103F +1020 ?1020 +101F ?101F +1010 ?1010 +100F ?100F +1008 ?1008 +1007 ?1007 "
     "+1004 ?1004 +1003 ?1003 +1002 ?1002 +1001 ?1001 +1000 ?1000",
     "23: 1800 17FF 1400 13FF 1200 11FF 1100 10FF 1080 107F 1040 103F 1020 101F 1010 100F 1008 1007 1004 1003 1002 "
     "1001 1000"},
    {"roll: the winner stands first of fifty", "50: 1000..1031", "?1000", "50: 1000..1031"},
    {"roll: the winner stands last of fifty", "50: 1031..1000", "?1000", "50: 1031..1000"},
    {"roll: the winner stands in the middle of fifty", "50: 1001..1019 1000 101A..1031", "?1000",
     "50: 1001..1019 1000 101A..1031"},

    /* "and leave when served or withdrawn" */
    {"roll: the only one leaves, none is shown", NULL, "+1525 -1525 ?none", "0:"},
    {"roll: the first leaves", "3: 1003 1001 1002", "-1003 ?1001", "2: 1001 1002"},
    {"roll: the middle one leaves", "3: 1003 1001 1002", "-1001 ?1002", "2: 1003 1002"},
    {"roll: the last leaves", "3: 1003 1001 1002", "-1002 ?1001", "2: 1003 1001"},
    {"roll: the winner leaves, the next is shown", NULL,
     "+1005 +1003 +1004 ?1003 -1003 ?1004 -1004 ?1005 -1005 ?none", "0:"},
    {"roll: a broadcast leaves, the lowest ordinary one is shown", "3: 1003 0FFF 1002", "?0FFF -0FFF ?1002",
     "2: 1003 1002"},
    {"roll: another than the winner leaves", "3: 1003 1001 1002", "-1002 ?1001 -1003 ?1001", "1: 1001"},
    {"roll: the first of fifty leaves", FIFTY, "-1000 ?1001", "49: 1001..1031"},
    {"roll: the last of fifty leaves", FIFTY, "-1031 ?1000", "49: 1000..1030"},
    {"roll: one in the middle of fifty leaves", FIFTY, "-1019 ?1000", "49: 1000..1018 101A..1031"},
    {"roll: fifty leave as they joined", FIFTY, "-1000..1031 ?none", "0:"},
    {"roll: fifty leave, the last one first", FIFTY, "-1031..1000 ?none", "0:"},
    {"roll: one that left joins behind the others", NULL, "+1001 +1002 -1001 ?1002 +1001 ?1001", "2: 1002 1001"},
    {"roll: one leaves though another has its address", "2: 1525 0525", "-1525 ?0525", "1: 0525"},
    {"roll: a broadcast leaves though another has its address", "2: 1525 0525", "-0525 ?1525", "1: 1525"},
    {"roll: broadcast 000H leaves", "2: 0000 1001", "-0000 ?1001", "1: 1001"},

    /* "Room given up by one that left is used again." */
    {"roll: room of the first is used again", FIFTY, "+1032=21 -1000 +1032 ?1001 +1000=21", "50: 1001..1032"},
    {"roll: room of the last is used again", FIFTY, "-1031 +0031 ?0031 +1031=21", "50: 1000..1030 0031"},
    {"roll: room in the middle is used again", FIFTY, "-1019 +1032 +1019=21", "50: 1000..1018 101A..1032"},
    {"roll: room of all is used again", FIFTY, "-1000..1031 +0000..0031 ?0000 +1000=21", "50: 0000..0031"},
    {"roll: room of two is used by two", FIFTY, "-1005 -1007 +1032 +1033 +1005=21",
     "50: 1000..1004 1006 1008..1033"},

    /* "22, joining with a bit and address already there, checked before 21" */
    {"roll: 22: the only one joins again", NULL, "+1525 +1525=22 ?1525", "1: 1525"},
    {"roll: 22: broadcast 000H joins again", NULL, "+0000 +0000=22", "1: 0000"},
    {"roll: 22: the first, the middle one and the last join again", "3: 1003 1001 1002",
     "+1003=22 +1001=22 +1002=22 ?1001", "3: 1003 1001 1002"},
    {"roll: 22 comes before 21, for each of fifty", FIFTY, "+1000..1031=22", FIFTY},
    {"roll: no 22 for the other bit", NULL, "+1525 +0525 ?0525", "2: 1525 0525"},
    {"roll: no 22 for one that left", NULL, "+1525 -1525 +1525 ?1525", "1: 1525"},
    {"roll: no 22 for another low half or high half", NULL, "+1525 +1425 +1524 +1535", "4: 1525 1425 1524 1535"},
    {"roll: no 22 for broadcast 000H where places are 0", NULL, "+1525 +0000", "2: 1525 0000"},

    /* "21, joining a roll of 50" */
    {"roll: 21 where fifty are there", FIFTY, "+1032=21 ?1000", FIFTY},
    {"roll: 21 for one that would win", FIFTY, "+0000=21 ?1000", FIFTY},
    {"roll: 21 for the other bit of each of fifty", FIFTY, "+0000..0031=21", FIFTY},
    {"roll: no 21 for the fiftieth", "49: 1000..1030", "+1031 +1032=21", FIFTY},
    {"roll: no 21 for the forty-ninth", "48: 1000..102F", "+1030 ?1000", "49: 1000..1030"},

    /* "23, leaving while not there" */
    {"roll: 23 in an empty roll", NULL, "-1525=23 ?none", "0:"},
    {"roll: 23 for broadcast 000H in an empty roll", NULL, "-0000=23", "0:"},
    {"roll: 23 for broadcast 000H where places are 0", NULL, "+1525 -0000=23", "1: 1525"},
    {"roll: 23 for the other bit", NULL, "+1525 -0525=23 ?1525", "1: 1525"},
    {"roll: 23 for the other bit of a broadcast", NULL, "+0525 -1525=23 ?0525", "1: 0525"},
    {"roll: 23 for one that left already", NULL, "+1525 +1526 -1525 -1525=23", "1: 1526"},
    {"roll: 23 for the one that was last before it left", NULL, "+1525 +1526 -1526 -1526=23", "1: 1525"},
    {"roll: 23 for another low half or high half", "1: 1525", "-1425=23 -1524=23 -1535=23", "1: 1525"},
    {"roll: 23 where fifty are there", FIFTY, "-1032=23 -0000=23", FIFTY},

    /* "A request out of range is number 14, ahead of these." */
    {"roll: 14 for a bit over 1", NULL, "+2,525=14 +3,525=14 +100,525=14 +10001,525=14 +80000000,525=14 ?none", "0:"},
    {"roll: 14 for a bit of FFFFFFFFH", NULL, "+FFFFFFFF,525=14", "0:"},
    {"roll: 14 for an address over FFFH", NULL, "+1,1000=14 +0,1000=14 +1,1FFF=14 +1,8000=14 +1,10525=14 ?none", "0:"},
    {"roll: 14 for an address of FFFFFFFFH", NULL, "+1,FFFFFFFF=14 +0,80000000=14", "0:"},
    {"roll: 14 for both", NULL, "+2,1000=14 +FFFFFFFF,FFFFFFFF=14", "0:"},
    {"roll: 14 for leaving too", NULL, "-2,525=14 -1,1000=14 -FFFFFFFF,0=14 -0,FFFFFFFF=14", "0:"},
    {"roll: 14 for what would be there but for a higher bit", "2: 1525 0525",
     "+3,525=14 +1,1525=14 +0,1525=14 +1,10525=14 +10001,525=14", "2: 1525 0525"},
    {"roll: 14 for leaving with what is there but for a higher bit", "2: 1525 0525",
     "-3,525=14 -2,525=14 -1,1525=14 -0,1525=14 -1,10525=14 -10001,525=14 ?0525", "2: 1525 0525"},
    {"roll: 14 comes before 21 and 22", FIFTY, "+2,0=14 +1,1000=14 +0,1000=14 +3,0=14", FIFTY},
    {"roll: 14 comes before 23", FIFTY, "-2,0=14 -1,1032=14 -0,1000=14", FIFTY},
    {"roll: 14 comes before 100", FIFTY, "+2,0@100=14 +1,1000@0=14 -2,0@102=14 -1,1000@357=14 -2,0@100=14", FIFTY},

    /* 100 for a roll of another size */
    {"roll: 100 for beginning", FIFTY, "!@0=100 !@1=100 !@100=100 !@102=100 !@357=100 !@613=100 ?1000", FIFTY},
    {"roll: 100 for joining", "1: 1525", "+1524@0=100 +1524@1=100 +1524@100=100 +1524@102=100 +1524@357=100 ?1525",
     "1: 1525"},
    {"roll: 100 for leaving", "1: 1525", "-1525@0=100 -1525@1=100 -1525@100=100 -1525@102=100 -1525@357=100 ?1525",
     "1: 1525"},
    {"roll: 100 for showing", "1: 1525", "?@0=100 ?@1=100 ?@3=100 ?@100=100 ?@102=100 ?@357=100 ?1525", "1: 1525"},
    {"roll: 100 for showing where it is empty", NULL, "?@0=100 ?@1=100 ?@100=100 ?@102=100", "0:"},
    {"roll: 100 comes before 22 and 21", FIFTY, "+1000@100=100 +1031@102=100 +1032@100=100 +1032@102=100", FIFTY},
    {"roll: 100 comes before 23", "1: 1525", "-1526@0=100 -1526@100=100 -1526@102=100", "1: 1525"},

    /* bytes that nobody here wrote: a count over 50 is 50 */
    {"roll: a count of 51", "51: 1000..1031", "?1000 +1032=21 +1031=22 -1032=23", "51: 1000..1031"},
    {"roll: a count of 51, one leaves", "51: 1000..1031", "-1031 ?1000 +1032 +1033=21", "50: 1000..1030 1032"},
    {"roll: a count of 255", "255: 1000..1031", "?1000 +1032=21 +1000=22", "255: 1000..1031"},
    {"roll: a count of 255, one leaves", "255: 1000..1031", "-1000 ?1001", "49: 1001..1031"},
    {"roll: a count of 64", "64: 1031..1000", "?1000 -1000 ?1001", "49: 1031..1001"},
    {"roll: a count of 100", "100: 1031..1000", "?1000 -1031 ?1000", "49: 1030..1000"},
    {"roll: a count of 128", "128: 1031..1000", "?1000 +0000=21 -1000", "49: 1031..1001"},
    {"roll: a count of 178, fifty but for the top bit", "178: 1031..1000", "?1000 -1005", "49: 1031..1006 1004..1000"},

    /* .. a request is taken modulo 8192 */
    {"roll: requests with foreign bits", "2: F005 E004", "?0004 +1005=22 +0004=22 -1004=23 -0005=23 +2,5=14",
     "2: F005 E004"},
    {"roll: requests with foreign bits, another joins", "2: F005 E004", "+1006 ?0004", "3: 1005 0004 1006"},
    {"roll: requests with foreign bits, one leaves", "3: F005 E004 3007", "-0004 ?1005", "2: 1005 1007"},
    {"roll: a foreign bit makes no request higher", "2: 9001 1002", "?1001", "2: 9001 1002"},
    {"roll: a foreign bit does not outdo the broadcast bit", "2: 3000 4FFF", "?0FFF", "2: 3000 4FFF"},
    {"roll: foreign bits in all of fifty", "50: F000..F031", "?1000 +1032=21 +1031=22 -1019",
     "49: 1000..1018 101A..1031"},

    /* .. and what stands past the count is none of it */
    {"roll: bytes past the count", "1: 1005 | FFFF", "?1005 -1FFF=23 -1006=23", "1: 1005 | FFFF"},
    {"roll: bytes past the count, another joins", "1: 1005 | FFFF", "+1FFF ?1005", "2: 1005 1FFF"},
    {"roll: bytes past the count, one leaves", "2: 1005 1004 | FFFF", "-1005 ?1004", "1: 1004"},
    {"roll: bytes past a count of 0", "0: | 1001", "?none -1001=23", "0: | 1001"},
    {"roll: bytes past a count of 0, one joins", "0: | 1001", "+1001 ?1001", "1: 1001"},
    {"roll: bytes past a count of 49", "49: 1000..1030 0000", "?1000 -0000=23 +0000 ?0000 +0001=21",
     "50: 1000..1030 0000"},

    /* .. and two may be alike: the first of them leaves */
    {"roll: two alike", "2: 1005 1005", "?1005 +1005=22", "2: 1005 1005"},
    {"roll: two alike leave one after the other", "2: 1005 1005", "-1005 ?1005 -1005 ?none -1005=23", "0:"},
    {"roll: two alike win over others", "4: 1007 1005 1006 1005", "?1005", "4: 1007 1005 1006 1005"},
    {"roll: two alike lose", "3: 1007 1007 1005", "?1005 -1005 ?1007", "2: 1007 1007"},
    {"roll: of two alike the first leaves", "3: 1005 1004 1005", "-1005 ?1004", "2: 1004 1005"},
    {"roll: of two pairs the first of one leaves", "4: 1005 1004 1005 1004", "-1004 ?1004", "3: 1005 1005 1004"},
    {"roll: another joins two alike", "2: 1005 1005", "+1004 ?1004", "3: 1005 1005 1004"},
    {"roll: fifty alike", "50: 1005*50", "?1005 +1004=21 +1005=22 -1005 +1004 ?1004", "50: 1005*49 1004"},
    {"roll: two alike but for foreign bits", "3: 3005 1004 1005", "+1005=22 -1005 ?1004", "2: 1004 1005"},
};

enum { KNOWN_ROLLS = sizeof known_rolls / sizeof *known_rolls };

/* Puts the requests of one item from a place on; gives where the text goes on. */
static inline const char *put_requests(uint8_t *roll, size_t *place, const char *text)
{
    char *rest;
    uint32_t word = (uint32_t)strtoul(text, &rest, 16), to = word;
    unsigned long times = *rest == '*' ? strtoul(rest + 1, &rest, 10) : 1;
    if (*rest == '.')
        to = (uint32_t)strtoul(rest + 2, &rest, 16);
    for (; times > 1; times--)
        keep_word(roll, (*place)++, word);
    for (; word != to; word += word < to ? 1 : -1u)
        keep_word(roll, (*place)++, word);
    keep_word(roll, (*place)++, to);
    return *rest == ' ' ? rest + 1 : rest;
}

static inline void put_roll(uint8_t *roll, const char *text)
{
    char *rest;
    size_t place = 0;
    memset(roll, 0, ROLL_BYTES);
    roll[0] = (uint8_t)strtoul(text, &rest, 10);
    for (text = rest[1] == ' ' ? rest + 2 : rest + 1; *text && *text != '|';)
        text = put_requests(roll, &place, text);
    for (uint32_t word = *text ? (uint32_t)strtoul(text + 1, NULL, 16) : 0; place < MOST_REQUESTS; place++)
        keep_word(roll, place, word);
}

struct known_call {
    struct roll_call call;
    uint32_t to;              /* the last request of those that call, which differ in the address */
    uint32_t number, shown;
};

static inline const char *put_who(struct known_call *k, const char *text)
{
    char *rest;
    uint32_t request = (uint32_t)strtoul(text, &rest, 16);
    k->call.bit = request >> ADDRESS_BITS;
    k->call.address = request & MAX_ADDRESS;
    if (*rest == ',') {
        k->call.bit = request;
        k->call.address = (uint32_t)strtoul(rest + 1, &rest, 16);
    }
    k->to = k->call.address;
    if (*rest == '.')
        k->to = (uint32_t)strtoul(rest + 2, &rest, 16) & MAX_ADDRESS;
    return rest;
}

/* Takes one item of the calls; gives where the text goes on. */
static inline const char *put_call(struct known_call *k, const char *text)
{
    static const char marks[] = "!+-?";
    char *rest;
    *k = (struct known_call){.call = {.len = ROLL_BYTES}, .shown = UNTOUCHED_WORD};
    k->call.function = (enum roll_function)(strchr(marks, *text++) - marks);
    if (strncmp(text, "none", 4) == 0) {
        k->shown = SHOWN_NONE;
        text += 4;
    } else if (k->call.function == ROLL_SHOWN && *text != '@') {
        k->shown = SHOWN_SOME | (uint32_t)strtoul(text, &rest, 16);
        text = rest;
    } else if (k->call.function == ROLL_JOIN || k->call.function == ROLL_LEAVE)
        text = put_who(k, text);
    if (*text == '@') {
        k->call.len = strtoul(text + 1, &rest, 10);
        text = rest;
    }
    if (*text == '=') {
        k->number = (uint32_t)strtoul(text + 1, &rest, 10);
        text = rest;
    }
    return *text == ' ' ? text + 1 : text;
}

/* The number and what is shown are those known, and nothing is written but what may be. */
static inline bool known_call_holds(const struct roll_functions *functions, const struct known_call *k,
                                    struct lent_roll *lent)
{
    struct lent_roll before = *lent;
    call_lent(functions, &k->call, lent);
    return lent->number == k->number && lent->shown[1] == k->shown && call_keeps(&k->call, &before, lent);
}

static inline bool known_calls_hold(const struct roll_functions *functions, const char *text, struct lent_roll *lent)
{
    struct known_call k;
    bool holds = true;
    while (*text && holds) {
        text = put_call(&k, text);
        holds = known_call_holds(functions, &k, lent);
        while (k.call.address != k.to && holds) {
            k.call.address += k.call.address < k.to ? 1 : -1u;
            holds = known_call_holds(functions, &k, lent);
        }
    }
    return holds;
}

static inline bool known_roll_holds(const struct known_roll *k, const struct roll_functions *functions)
{
    struct lent_roll lent;
    uint8_t roll[ROLL_BYTES], left[ROLL_BYTES];
    put_roll(roll, k->roll ? k->roll : "90: 5A5A*50");
    put_roll(left, k->left);
    lend_roll(&lent, roll);
    return (k->roll || known_calls_hold(functions, "!", &lent)) && known_calls_hold(functions, k->calls, &lent)
           && memcmp(roll_in(&lent), left, ROLL_BYTES) == 0;
}

/* Fifty join; then again and again one more is refused, the oldest leaves, which has the lowest address, and that one
   joins: 4,046 times, after which the addresses are used up. */
static inline bool room_is_used_again(const struct roll_functions *functions)
{
    enum { ADDRESSES = MAX_ADDRESS + 1 };
    struct lent_roll lent;
    uint8_t roll[ROLL_BYTES];
    char calls[100];
    put_roll(roll, "0:");
    lend_roll(&lent, roll);
    bool holds = known_calls_hold(functions, "! +1000..1031", &lent);
    for (unsigned next = MOST_REQUESTS; next < ADDRESSES && holds; next++) {
        snprintf(calls, sizeof calls, "+1%03X=21 -1%03X +1%03X ?1%03X", next, next - 50, next, next - 49);
        holds = known_calls_hold(functions, calls, &lent);
    }
    put_roll(roll, "50: 1FCE..1FFF");
    return holds && memcmp(roll_in(&lent), roll, ROLL_BYTES) == 0;
}

/* Every known case with its name, for whoever reports them. */
static inline void try_known_rolls(const struct roll_functions *functions, void (*tell)(const char *name, bool holds))
{
    for (size_t i = 0; i < KNOWN_ROLLS; i++)
        tell(known_rolls[i].name, known_roll_holds(&known_rolls[i], functions));
    tell("roll: room is used again 4,046 times", room_is_used_again(functions));
}

#endif
