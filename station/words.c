#include "words.h"

#include <stdlib.h>
#include <string.h>

#include "messages.h"

/* ---- words to numbers ---- */

/* Digits only, and within 32 bits; what the number may be is for the library to say. */
static const char *number(const char *at, uint32_t *out)
{
    uint64_t sum = 0;
    const char *first = at;
    while (*at >= '0' && *at <= '9' && sum <= UINT32_MAX)
        sum = sum * 10 + (uint64_t)(*at++ - '0');
    if (at == first || sum > UINT32_MAX)
        return NULL;
    *out = (uint32_t)sum;
    return at;
}

static int whole(const char *word, uint32_t *out)
{
    const char *end = number(word, out);
    return end != NULL && *end == '\0';
}

static int pair(const char *word, char between, uint32_t *first, uint32_t *second)
{
    const char *end = number(word, first);
    return end != NULL && *end == between && whole(end + 1, second);
}

static int factor(const char *word, tz_settings *s)
{
    char *end;
    if (strcmp(word, "off") == 0) {
        s->clip = 0;
        s->factor = 0;
        return 1;
    }
    s->clip = 1;
    s->factor = strtof(word, &end);
    return end != word && *end == '\0';
}

/* Two words and no number: 0 and 1 mean them for C alone. */
static int edition(const char *word, tz_settings *s)
{
    s->edition = strcmp(word, "1986") == 0 ? TZ_1986 : TZ_OURS;
    return s->edition == TZ_1986 || strcmp(word, "ours") == 0;
}

/* A name is kept as it is, and none is empty. */
static int kept(const char **place, const char *word)
{
    *place = word;
    return *word != '\0';
}

static int range(const char *word, struct job *job)
{
    if (strcmp(word, "auto") != 0)
        return pair(word, ':', &job->settings.min, &job->settings.max);
    job->given |= OWN_RANGE;
    return 1;
}

static int value(enum given which, const char *word, struct job *job)
{
    tz_settings *s = &job->settings;
    tz_window *w = &job->window;
    switch (which) {
    case GRID:
        return pair(word, 'x', &s->across, &s->down);
    case BINS:
        return whole(word, &s->bins);
    case RANGE:
        return range(word, job);
    case CLIP:
        return factor(word, s);
    case EDITION:
        return edition(word, s);
    case AT:
        return pair(word, ',', &w->left, &w->top);
    case SIZE:
        return pair(word, 'x', &w->width, &w->height);
    case SIDE:
        return whole(word, &job->side);
    case JOBS:
        return whole(word, &job->jobs) && job->jobs >= 1;
    case OUTPUT:
        return kept(&job->out, word);
    case RECORD:
        return kept(&job->record, word);
    case INTO:
        return kept(&job->into, word);
    case SCAN:
        return kept(&job->scan, word);
    default: /* the others have none */
        return 1;
    }
}

/* ---- options ---- */

static const struct option {
    const char *name;
    enum given which;
    int has_value;
} options[] = {
    {"--grid", GRID, 1},       {"--bins", BINS, 1},   {"--range", RANGE, 1},     {"--clip", CLIP, 1},
    {"--at", AT, 1},           {"--size", SIZE, 1},   {"--bytes", BYTES, 0},     {"--record", RECORD, 1},
    {"--into", INTO, 1},       {"--jobs", JOBS, 1},   {"--records", RECORDS, 0}, {"--force", FORCE, 0},
    {"--output", OUTPUT, 1},   {"-o", OUTPUT, 1},     {"--quiet", QUIET, 0},     {"-q", QUIET, 0},
    {"--verbose", VERBOSE, 0}, {"-v", VERBOSE, 0},    {"--json", AS_JSON, 0},    {"--scan", SCAN, 1},
    {"--edition", EDITION, 1}, {"--whole", WHOLE, 0}, {"--side", SIDE, 1},
};

/* The option that a word names, alone or with `=value` behind it. */
static const struct option *option_of(const char *word)
{
    for (unsigned i = 0; i < sizeof options / sizeof options[0]; i++) {
        size_t length = strlen(options[i].name);
        if (strncmp(word, options[i].name, length) == 0 && (word[length] == '\0' || word[length] == '='))
            return &options[i];
    }
    return NULL;
}

/* Which options a command takes. */
static unsigned taken(enum command command)
{
    unsigned film = FORCE | OUTPUT | QUIET, several = INTO | JOBS;
    unsigned settings = GRID | BINS | RANGE | CLIP | EDITION, rendering = film | settings | RECORD | VERBOSE;
    switch (command) {
    case ENHANCE:
        return rendering | BYTES | several | RECORDS;
    case WINDOW:
        return rendering | BYTES | AT | SIZE;
    case DIRECT:
        return rendering;
    case AROUND:
        return (rendering & ~(unsigned)GRID) | SIDE | several | RECORDS;
    case CHECK:
        return settings | WHOLE | QUIET;
    case RAW:
    case PLAIN:
        return film | several;
    case INFO:
        return AS_JSON | QUIET;
    case VERIFY:
        return SCAN | QUIET;
    default:
        return QUIET;
    }
}

/* A grid and a side take each other's place. */
static int is_other_place(const struct option *option, enum command command)
{
    return option != NULL && ((option->which == GRID && command == AROUND) ||
                              (option->which == SIDE && (taken(command) & GRID) != 0));
}

static int in_its_place(enum given which)
{
    if (which == GRID)
        return bad_words("around has no tiles, as each pixel has a region of its own: --side takes the place of --grid", "");
    return bad_words("--side goes with around, where each pixel has a region of its own; tiles have --grid", "");
}

/* It may be meant as a file's name. */
static int no_option(const char *word)
{
    say("this command has no such option: %s", word);
    say_more("A file whose name begins with a dash stands behind '--', or as ./%s", word);
    say_more("'tzofnadir help' tells the words that are taken");
    return BAD_WORDS;
}

/* Takes the option at word `at`, which is its last word then. */
static int take_option(char **argv, int *at, struct job *job)
{
    const struct option *option = option_of(argv[*at]);
    if (option == NULL || (option->which & taken(job->command)) == 0)
        return is_other_place(option, job->command) ? in_its_place(option->which) : no_option(argv[*at]);
    if ((option->which & job->given) != 0)
        return bad_words("this option is given twice", option->name);
    job->given |= option->which;
    const char *word = strchr(argv[*at], '=');
    if (!option->has_value)
        return word == NULL ? 0 : bad_words("this option takes no value", argv[*at]);
    word = word != NULL ? word + 1 : argv[++*at];
    if (word == NULL)
        return bad_words("a value is missing behind", option->name);
    if (value(option->which, word, job))
        return 0;
    if (option->which == EDITION)
        return bad_words("--edition takes one of two words, ours or 1986; not understood", word);
    say("%s does not take this value", option->name);
    return bad_words("not understood", word);
}

/* ---- names ---- */

static int has(const struct job *job, enum given which) { return (job->given & which) != 0; }

const char *last_part(const char *path)
{
    const char *slash = strrchr(path, '/');
    return slash == NULL ? path : slash + 1;
}

int ends_in(const char *word, const char *end)
{
    size_t length = strlen(word), tail = strlen(end);
    return length >= tail && strcmp(word + length - tail, end) == 0;
}

/* The commands that write a film, and those of them that write several into a folder. */
static int writes_many(enum command c) { return c == ENHANCE || c == AROUND || c == RAW || c == PLAIN; }
static int writes(enum command c) { return writes_many(c) || c == WINDOW || c == DIRECT; }

int is_move(const struct job *job) { return job->command == RAW || job->command == PLAIN; }

static int check_names(const struct job *job)
{
    int wanted = writes(job->command) && !has(job, OUTPUT) ? 2 : 1;
    if (has(job, QUIET) && has(job, VERBOSE))
        return bad_words("--quiet and --verbose do not go together", "");
    if (has(job, INTO) && has(job, OUTPUT))
        return bad_words("--into gives each film its name there, so -o does not go with it", "");
    if (has(job, INTO) && has(job, RECORD))
        return bad_words("with --into it is --records, which writes a record beside each rendering", "");
    if (has(job, INTO))
        return job->count > 0 ? 0 : bad_words("a film is missing", "");
    if (has(job, JOBS))
        return bad_words("--jobs goes with --into: it says how many films are done at once", "");
    if (has(job, RECORDS))
        return bad_words("--records goes with --into; one film's record is written by --record FILE", "");
    if (job->count < wanted)
        return bad_words("a file name is missing", "");
    if (job->count > wanted && writes_many(job->command))
        return bad_words("one word too many (several films want --into FOLDER)", job->names[wanted]);
    return job->count > wanted ? bad_words("one word too many", job->names[wanted]) : 0;
}

/* ---- the command line ---- */

/* Help and version are given wherever they are asked for, up to a word `--`. */
static int asks(int argc, char **argv, enum command *command)
{
    for (int i = 1; i < argc && strcmp(argv[i], "--") != 0; i++) {
        int help = strcmp(argv[i], "-h") == 0 || strcmp(argv[i], "--help") == 0 || strcmp(argv[i], "help") == 0;
        if (help || strcmp(argv[i], "--version") == 0) {
            *command = help ? HELP : VERSION;
            return 1;
        }
    }
    return 0;
}

static int command_of(const char *word, enum command *command)
{
    static const char *const names[] = {"enhance", "window", "listing", "info", "verify",
                                        "raw",     "plain",  "direct",  "check", "around"};
    for (unsigned i = 0; i < sizeof names / sizeof names[0]; i++)
        if (strcmp(word, names[i]) == 0) {
            *command = (enum command)i;
            return 1;
        }
    return 0;
}

int words(int argc, char **argv, struct job *job)
{
    int names_only = 0, code = 0;
    if (asks(argc, argv, &job->command))
        return 0;
    if (argc < 2)
        return bad_words("a command is missing", "");
    if (!command_of(argv[1], &job->command))
        return bad_words("no such command", argv[1]);
    job->names = argv; /* the names are moved up to its front, which is read already */
    for (int i = 2; i < argc && code == 0; i++) {
        /* '-' alone is a name: standard input or output */
        if (names_only || argv[i][0] != '-' || argv[i][1] == '\0')
            job->names[job->count++] = argv[i];
        else if (strcmp(argv[i], "--") == 0) {
            names_only = 1;
            job->plain_from = job->count;
        }
        else
            code = take_option(argv, &i, job);
    }
    if (!names_only)
        job->plain_from = job->count;
    if (code == 0)
        code = check_names(job);
    if (code == 0 && job->command == WINDOW && (~job->given & (AT | SIZE)) != 0)
        return bad_words("a window wants --at and --size", "");
    return code;
}
