/* The proved reader of line logs, from C: logs worked out by hand, each refusal, and random logs against the second
   model, with what the reader promises of any log. Prints "ok NAME" or "FAILED NAME: why" for each test. */
#include <stdbool.h>
#include <stdio.h>
#include <string.h>

#include "iebus.h"

#include "check.h"
#include "known_logs.h"
#include "log_reach.h"

enum {
    SEED = 1,
    RANDOM_LOGS = 200000,
    /* every so many logs are also read from each of their starts on */
    READ_FROM_STARTS = 8,
};

static void known_cases(void)
{
    for (size_t i = 0; i < KNOWN_LOGS; i++)
        check(known_logs[i].name, known_log_holds(&known_logs[i], iebus_read_log));
    for (size_t i = 0; i < REFUSED_LOGS; i++)
        check(refused_logs[i].name, refused_log_holds(&refused_logs[i], iebus_read_log));
}

/* Longer answer lists, and one that is as long as the log, keep what stands behind the records. */
static void places_kept(void)
{
    static uint32_t slots[MOST_LOG_SLOTS];
    struct log log = {.slots = slots, .room = MOST_LOG_SLOTS};
    put_text(&log, "S S 1 S");
    const uint32_t records[] = {NOTHING_GIVEN(0), BIT_GIVEN(0, 1), NOTHING_GIVEN(0)};
    bool kept = true;
    for (log.records_len = log.len; log.records_len <= log.len + MOST_SPARE; log.records_len++)
        kept &= reads_as(iebus_read_log, &log, 3, records, 3);
    check("places past the last record keep their contents, whatever is lent", kept);
    struct log empty = {.slots = slots};
    for (empty.records_len = 0; empty.records_len <= MOST_SPARE; empty.records_len++)
        kept &= reads_as(iebus_read_log, &empty, 0, records, 0);
    check("the empty list is taken with and without places, and writes none", kept);
}

static uint64_t starts_in(const struct log *log)
{
    uint64_t starts = 0;
    for (size_t i = 0; i < log->len; i++)
        starts += log->slots[i] == SLOT_START;
    return starts;
}

/* "From a start word on, the reader gives what it gives on a fresh list, save the mark of the first frame there." */
static bool fresh_from_each_start(const struct log *log, const struct reading *whole, size_t words)
{
    static struct reading fresh;
    const uint32_t *record = whole->records, *end = whole->records + words;
    uint64_t frames = whole->frames;
    bool holds = true;
    for (size_t start = 0; start < log->len && holds; start++) {
        if (log->slots[start] != SLOT_START)
            continue;
        struct log rest = *log;
        rest.slots += start;
        rest.len = rest.records_len = log->len - start;
        read_lent(iebus_read_log, &rest, &fresh);
        size_t left = (size_t)(end - record);
        holds = fresh.result == TAKEN && fresh.frames == frames && untouched_from(&rest, &fresh, left)
                && fresh.records[0] == (record[0] & ~((uint32_t)1 << AGAIN_AT))
                && memcmp(fresh.records + 1, record + 1, (left - 1) * sizeof *record) == 0;
        record += record_words(record);
        frames--;
    }
    return holds;
}

/* What is promised of any log that is taken. */
struct promises {
    bool in_the_slots, one_for_each_start, fresh_from_starts;
};

static void look_from_outside(struct promises *kept, struct reach *reach, const struct log *log,
                              const struct reading *reading)
{
    size_t words = count_frames(reach, log, reading->records);
    kept->in_the_slots &= words <= log->len && untouched_from(log, reading, words);
    kept->one_for_each_start &= reading->frames == starts_in(log);
    if (reach->logs % READ_FROM_STARTS == 0)
        kept->fresh_from_starts &= fresh_from_each_start(log, reading, words);
}

static void random_logs(void)
{
    static uint32_t slots[MOST_LOG_SLOTS];
    static struct reading proved, model;
    static struct reach reach;
    struct random r = random_seeded(SEED);
    struct promises kept = {true, true, true};
    bool same = true;
    for (long i = 0; i < RANDOM_LOGS && same; i++) {
        struct log log = {.slots = slots, .room = MOST_LOG_SLOTS};
        draw_log(&r, &log);
        read_lent(iebus_read_log, &log, &proved);
        read_lent(model_read_log, &log, &model);
        same = readings_alike(&log, &proved, &model);
        if (!same)
            print_difference(&log, &proved, &model);
        count_log(&reach, &log);
        if (same && proved.result == TAKEN)
            look_from_outside(&kept, &reach, &log, &proved);
    }
    check("200,000 random logs are read as by the second model", same);
    /* the logs have been counted up to the first difference */
    if (!same)
        return;
    check("the records never have more words than the log has slots", kept.in_the_slots);
    check("there is a frame for each start word", kept.one_for_each_start);
    check("from each start on a log reads as a fresh one does, save the first mark", kept.fresh_from_starts);
    check_reached(&reach);
}

int main(void)
{
    known_cases();
    places_kept();
    random_logs();
    return any_failed;
}
