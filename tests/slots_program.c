/* What `iebus_slots` has to write, over the second model: the second opinion on its two outputs.

   slots_program known N FOLDER            the known capture N: its pulses, slots and errors, worked out by hand, into
                                           files of these names, and its arguments on standard output; status 1 behind
                                           the last one
   slots_program random SEED               a random capture, as the bytes that the program reads
   slots_program setting SEED              the arguments of that capture
   slots_program log SEED                  a random log, as slot words
   slots_program measure SEED ARGUMENT..   pulses that become the slot words on standard input
   slots_program print ARGUMENT..          what the program writes with these arguments */
#include "known_pulses.h"
#include "traffic/logs.h"
#include "word_files.h"

enum { MOST_WORDS = 16384, ARGUMENTS = 2 * SYMBOLS };

static void put_setting(const uint32_t *ranges)
{
    for (int i = 0; i < SYMBOLS; i++)
        printf("%" PRIu32 " %" PRIu32 "%c", least_of(ranges[i]), most_of(ranges[i]), i < SYMBOLS - 1 ? ' ' : '\n');
}

static bool get_setting(int count, char **arguments, uint32_t *ranges)
{
    uint32_t numbers[ARGUMENTS];
    for (int i = 0; i < ARGUMENTS; i++)
        if (i >= count || !get_number(arguments[i], &numbers[i]))
            return false;
    for (int i = 0; i < SYMBOLS; i++)
        ranges[i] = WIDTHS(numbers[2 * i], numbers[2 * i + 1]);
    return true;
}

static int lay(const char *folder, const struct capture *capture, const char *slots, uint32_t number)
{
    static const char words[] = "01S_";
    FILE *f = file_in(folder, "pulses");
    put_words(f, capture->pulses, capture->len);
    fclose(f);
    f = file_in(folder, "slots");
    for (; *slots; slots++) {
        uint32_t slot = (uint32_t)(strchr(words, *slots) - words);
        put_words(f, &slot, 1);
    }
    fclose(f);
    f = file_in(folder, "errors");
    if (number != TAKEN)
        fprintf(f, "refused %" PRIu32 "\n", number);
    fclose(f);
    put_setting(capture->ranges);
    return 0;
}

/* Those refused by 12 are left out: the program's own list is never too short. */
static int known(size_t number, const char *folder)
{
    static uint32_t pulses[MOST_PULSES];
    struct capture capture = {.pulses = pulses};
    if (number < KNOWN_PULSES) {
        put_capture(&capture, known_pulses[number].setting, known_pulses[number].pulses);
        return lay(folder, &capture, known_pulses[number].slots, TAKEN);
    }
    number -= KNOWN_PULSES;
    for (size_t i = 0; i < REFUSED_PULSES; i++)
        if (refused_pulses[i].missing == 0 && number-- == 0) {
            put_capture(&capture, refused_pulses[i].setting, refused_pulses[i].pulses);
            return lay(folder, &capture, "", refused_pulses[i].number);
        }
    return 1;
}

static int draw(unsigned long seed, bool setting)
{
    static uint32_t pulses[MOST_PULSES];
    struct capture capture = {.pulses = pulses};
    struct random r = random_seeded(seed);
    draw_capture(&r, &capture);
    if (setting)
        put_setting(capture.ranges);
    else
        put_words(stdout, capture.pulses, capture.len);
    return ferror(stdout);
}

static int draw_slots(unsigned long seed)
{
    static uint32_t slots[MOST_WORDS];
    struct random r = random_seeded(seed);
    struct log log = {.slots = slots, .room = 1 + random_below(&r, MOST_WORDS)};
    draw_mixed_log(&r, &log);
    put_words(stdout, log.slots, log.len);
    return ferror(stdout);
}

static int measure(unsigned long seed, const uint32_t *ranges)
{
    static uint32_t words[MOST_WORDS];
    struct random r = random_seeded(seed);
    size_t count = get_words(words, MOST_WORDS) / WORD_BYTES;
    for (size_t i = 0; i < count; i++)
        words[i] = draw_pulse_for(&r, ranges, words[i]);
    put_words(stdout, words, count);
    return ferror(stdout);
}

static int print(int count, char **arguments)
{
    static uint32_t pulses[MOST_WORDS], slots[MOST_WORDS];
    uint32_t ranges[SYMBOLS];
    if (!get_setting(count, arguments, ranges)) {
        fputs("usage: iebus_slots ZERO-LEAST ZERO-MOST ONE-LEAST ONE-MOST START-LEAST START-MOST <PULSES >SLOTS\n",
              stderr);
        return 0;
    }
    size_t bytes = get_words(pulses, MOST_WORDS), whole = bytes / WORD_BYTES;
    uint32_t number = model_slots(ranges[SLOT_LEVEL_0], ranges[SLOT_LEVEL_1], ranges[SLOT_START], pulses, whole, slots,
                                  MOST_WORDS);
    if (number != TAKEN) {
        fprintf(stderr, "refused %" PRIu32 "\n", number);
        return 0;
    }
    put_words(stdout, slots, whole);
    say_rest(bytes, MOST_WORDS);
    return ferror(stdout);
}

int main(int argc, char **argv)
{
    const char *command = argc > 1 ? argv[1] : "";
    unsigned long number = argc > 2 ? strtoul(argv[2], NULL, 10) : 0;
    uint32_t ranges[SYMBOLS];
    if (argc == 4 && strcmp(command, "known") == 0)
        return known(number, argv[3]);
    if (argc == 3 && (strcmp(command, "random") == 0 || strcmp(command, "setting") == 0))
        return draw(number, *command == 's');
    if (argc == 3 && strcmp(command, "log") == 0)
        return draw_slots(number);
    if (argc > 3 && strcmp(command, "measure") == 0 && get_setting(argc - 3, argv + 3, ranges))
        return measure(number, ranges);
    if (argc > 1 && strcmp(command, "print") == 0)
        return print(argc - 2, argv + 2);
    fputs("slots_program known N FOLDER | random SEED | setting SEED | log SEED | measure SEED ARGUMENT.. | "
          "print ARGUMENT..\n", stderr);
    return 2;
}
