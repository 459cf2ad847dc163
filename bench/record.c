/* Traffic of the second model as bytes on standard output, each word the lowest byte first.

   record mixed|slots WORDS

   `mixed` is what tests/frames runs: frames, and a host that writes and reads at every place. In `slots` the host is
   silent while a frame goes on, as one that only follows the line. The seed is fixed, so that every run records the
   same bytes. */
#include <stdio.h>
#include <stdlib.h>
#include <string.h>

#include "iebus.h"
#include "traffic/traffic.h"

enum { SEED = 10 };

static void silent(struct traffic *t)
{
    (void)t;
}

/* What keeps a unit in the frames: an address, SLRE set, RBF emptied, and now and then a request or an offer. */
static void quiet_host(struct traffic *t)
{
    t->habits.look = t->habits.garble = t->habits.reset = 0;
    t->habits.request = t->habits.offer = 100;
    t->habits.enable = t->habits.empty_rbf = t->habits.own_slave = 900;
    t->habits.cut = 100;
    host_between_frames(t);
}

static void slots_make(struct traffic *t, uint32_t *words, uint32_t *answers, size_t capacity)
{
    traffic_begin(t, SEED, words, answers, capacity);
    t->between_slots = silent;
    while (!traffic_full(t)) {
        quiet_host(t);
        emit_slot(t, SLOT_IDLE);
        line_frame(t);
    }
}

static int put_words(const uint32_t *words, size_t len)
{
    for (size_t i = 0; i < len; i++) {
        uint8_t bytes[4];
        iebus_put_word(bytes, words[i]);
        if (fwrite(bytes, sizeof bytes, 1, stdout) != 1)
            return 1;
    }
    return fflush(stdout) != 0;
}

int main(int argc, char **argv)
{
    if (argc != 3)
        return 2;
    size_t len = strtoul(argv[2], NULL, 10);
    uint32_t *words = malloc(len * sizeof *words), *answers = malloc(len * sizeof *answers);
    if (!words || !answers)
        return 1;
    struct traffic t;
    if (strcmp(argv[1], "slots") == 0)
        slots_make(&t, words, answers, len);
    else
        traffic_make(&t, SEED, words, answers, len);
    int status = put_words(words, len);
    free(words);
    free(answers);
    return status;
}
