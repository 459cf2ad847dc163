/* What `iebus_load` has to write, over the second model: the second opinion on its two outputs.

   load_program known N FOLDER      the known log N into files of that folder: its slots, the summary, plot and errors
                                    for the figures worked out by hand; its window on standard output; status 1 behind
                                    the last one
   load_program random SEED FILE    a random log into that file, and its window's low half on standard output
   load_program long                more words than the program reads, on standard output
   load_program print ARGUMENT..    what the program writes with these arguments */
#include "known_loads.h"
#include "word_files.h"

enum { MOST_WORDS = 65536, WORDS_BEHIND = 64 };

/* What both forms tell of a log. */
struct told {
    uint32_t w;
    size_t slots, busy;
    const uint32_t *figures;
    uint32_t largest;
    uint64_t place;
};

/* In these texts each @ stands for a number in five columns. */
static const char summary_text[] =
    "@ slots\n"
    "@ not idle\n"
    "@ % of the slots\n"
    "@ slots in the window\n"
    "@ not idle there at most\n"
    "@ % of the window\n"
    "@ is the first slot after which it was so\n";

static const char plot_head[] =
    "<svg xmlns=\"http://www.w3.org/2000/svg\" viewBox=\"0 0 960 400\" font-family=\"sans-serif\" font-size=\"15\">\n"
    "<title>Load of the line</title>\n"
    "<rect width=\"960\" height=\"400\" fill=\"#fff\"/>\n"
    "<text x=\"70\" y=\"30\" font-size=\"19\">Slots not idle among the latest @</text>\n"
    "<text x=\"70\" y=\"55\" fill=\"#a30\">at most @, @ %, first after slot @</text>\n"
    "<text x=\"910\" y=\"55\" text-anchor=\"end\">@ of @ slots not idle, @ %</text>\n"
    "<g text-anchor=\"end\">\n"
    "<text x=\"62\" y=\"85\">100 %</text>\n"
    "<text x=\"62\" y=\"155\">75 %</text>\n"
    "<text x=\"62\" y=\"225\">50 %</text>\n"
    "<text x=\"62\" y=\"295\">25 %</text>\n"
    "<text x=\"62\" y=\"365\">0 %</text>\n"
    "</g>\n"
    "<g text-anchor=\"middle\">\n"
    "<text x=\"70\" y=\"384\">slot 0</text>\n"
    "<text x=\"280\" y=\"384\">@</text>\n"
    "<text x=\"490\" y=\"384\">@</text>\n"
    "<text x=\"700\" y=\"384\">@</text>\n"
    "<text x=\"910\" y=\"384\">@</text>\n"
    "</g>\n"
    "<svg x=\"70\" y=\"80\" width=\"840\" height=\"280\" viewBox=\"0 0 @ @\" preserveAspectRatio=\"none\">\n"
    "<g transform=\"matrix(1 0 0 -1 0 @)\">\n"
    "<path fill=\"#58a\" d=\"M0 0\n";

static const char plot_figure[] = "V@h1\n";

static const char plot_tail[] =
    "V0z\"/>\n"
    "</g>\n"
    "</svg>\n"
    "<path fill=\"none\" stroke=\"#000\" stroke-opacity=\".2\" d=\"M70 80H910M70 150H910M70 220H910M70 290H910"
    "M70 360H910M70 80V360M280 80V360M490 80V360M700 80V360M910 80V360\"/>\n"
    "<path stroke=\"#a30\" stroke-width=\"2\" d=\"M@ 360V@\"/>\n"
    "</svg>\n";

static void put_text_with(FILE *f, const char *text, const size_t *numbers)
{
    for (; *text; text++)
        if (*text == '@')
            fprintf(f, "%5zu", *numbers++);
        else
            putc(*text, f);
}

static void put_summary(FILE *f, const struct told *t)
{
    const size_t numbers[] = {
        t->slots, t->busy, t->busy * 100 / t->slots, t->w, t->largest, (size_t)t->largest * 100 / t->w, t->place
    };
    put_text_with(f, summary_text, numbers);
}

/* The axis has four equal parts, the last of which may go beyond the log. */
static void put_plot(FILE *f, const struct told *t)
{
    size_t q = (t->slots + 3) / 4;
    const size_t head[] = {
        t->w, t->largest, (size_t)t->largest * 100 / t->w, t->place, t->busy, t->slots, t->busy * 100 / t->slots,
        q, 2 * q, 3 * q, 4 * q, 4 * q, t->w, t->w
    };
    /* the middle of the slot in a plot that is 840 wide, and the height of its figure in one that is 280 high */
    const size_t tail[] = {70 + 840 * (2 * t->place + 1) / (8 * q), 360 - 280 * (size_t)t->largest / t->w};
    put_text_with(f, plot_head, head);
    for (size_t i = 0; i < t->slots; i++) {
        size_t figure = t->figures[i];
        put_text_with(f, plot_figure, &figure);
    }
    put_text_with(f, plot_tail, tail);
}

static size_t busy_of(const uint32_t *slots, size_t len)
{
    size_t busy = 0;
    for (size_t i = 0; i < len; i++)
        busy += slots[i] != SLOT_IDLE;
    return busy;
}

/* Both forms of what is told, or nothing where it is NULL, and the line on standard error. */
static int lay(const char *folder, const struct windowed_log *log, const struct told *told, const char *line)
{
    FILE *f = file_in(folder, "slots");
    put_words(f, log->slots, log->len);
    fclose(f);
    f = file_in(folder, "summary");
    if (told)
        put_summary(f, told);
    fclose(f);
    f = file_in(folder, "plot");
    if (told)
        put_plot(f, told);
    fclose(f);
    f = file_in(folder, "errors");
    fputs(line, f);
    fclose(f);
    printf("%" PRIu32 "\n", log->w);
    return 0;
}

static int lay_known(const char *folder, const struct known_load *k)
{
    static uint32_t slots[MOST_LOAD_SLOTS], figures[MOST_LOAD_SLOTS];
    struct windowed_log log = {.slots = slots};
    put_windowed_log(&log, k->w, k->slots);
    put_figures(figures, k->figures);
    struct told told = {k->w, log.len, busy_of(slots, log.len), figures, k->largest, k->place};
    return log.len == 0 ? lay(folder, &log, NULL, "empty\n") : lay(folder, &log, &told, "");
}

/* Those refused by 12 are left out, the program's own list being never too short, and windows that are no argument. */
static int known(size_t number, const char *folder)
{
    static uint32_t slots[MOST_LOAD_SLOTS];
    struct windowed_log log = {.slots = slots};
    if (number < KNOWN_LOADS)
        return lay_known(folder, &known_loads[number]);
    number -= KNOWN_LOADS;
    for (size_t i = 0; i < REFUSED_LOADS; i++)
        if (refused_loads[i].missing == 0 && refused_loads[i].w <= MOST_NUMBER && number-- == 0) {
            put_windowed_log(&log, refused_loads[i].w, refused_loads[i].slots);
            return lay(folder, &log, NULL, log.w == 0 || log.w > MOST_WINDOW ? "refused 25\n" : "refused 16\n");
        }
    return 1;
}

static int draw(unsigned long seed, const char *path)
{
    static uint32_t slots[MOST_LOAD_SLOTS];
    struct windowed_log log = {.slots = slots};
    struct random r = random_seeded(seed);
    FILE *f = fopen(path, "wb");
    if (!f)
        return 2;
    draw_windowed_log(&r, &log);
    put_words(f, log.slots, log.len);
    printf("%" PRIu32 "\n", log.w & MOST_NUMBER);
    return fclose(f);
}

static int draw_long(void)
{
    static uint32_t slots[MOST_WORDS + WORDS_BEHIND];
    struct log log = {.slots = slots, .room = MOST_WORDS + WORDS_BEHIND};
    struct random r = random_seeded(1);
    draw_stretches(&r, &log);
    put_words(stdout, log.slots, log.len);
    return ferror(stdout);
}

static int print(int count, char **arguments)
{
    static uint32_t slots[MOST_WORDS], figures[MOST_WORDS];
    struct told told = {.figures = figures};
    bool plot = count > 1;
    if (count < 1 || !get_number(arguments[0], &told.w) || (plot && strcmp(arguments[1], "svg") != 0)) {
        fputs("usage: iebus_load WINDOW [svg] <SLOTS\n", stderr);
        return 0;
    }
    size_t bytes = get_words(slots, MOST_WORDS);
    told.slots = bytes / WORD_BYTES;
    told.busy = busy_of(slots, told.slots);
    uint32_t number = model_load(told.w, slots, told.slots, figures, MOST_WORDS, &told.largest, &told.place);
    if (number != TAKEN) {
        fprintf(stderr, "refused %" PRIu32 "\n", number);
    } else if (told.slots == 0) {
        fputs("empty\n", stderr);
    } else {
        (plot ? put_plot : put_summary)(stdout, &told);
        say_rest(bytes, MOST_WORDS);
    }
    return ferror(stdout);
}

int main(int argc, char **argv)
{
    const char *command = argc > 1 ? argv[1] : "";
    unsigned long number = argc > 2 ? strtoul(argv[2], NULL, 10) : 0;
    if (argc == 4 && strcmp(command, "known") == 0)
        return known(number, argv[3]);
    if (argc == 4 && strcmp(command, "random") == 0)
        return draw(number, argv[3]);
    if (argc == 2 && strcmp(command, "long") == 0)
        return draw_long();
    if (argc > 1 && strcmp(command, "print") == 0)
        return print(argc - 2, argv + 2);
    fputs("load_program known N FOLDER | random SEED FILE | long | print ARGUMENT..\n", stderr);
    return 2;
}
