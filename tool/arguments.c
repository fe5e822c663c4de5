#include "arguments.h"

#include <string.h>

#include "numbers.h"
#include "records.h"
#include "say.h"
#include "schedules.h"

const char *const reader_words[STAMP_READERS] = {
    "date", "datetz", "time", "timetz", "datetime", "datetimetz",
    "date-or-datetz", "time-or-timetz", "datetime-or-datetimetz"
};

static bool wrong(const char *what, const char *word)
{
    say_usage(what, word);
    return false;
}

static bool parse_kind(const char *word, request *into)
{
    uint32_t kind;
    if (word == NULL)
        return wrong("which kind?", NULL);
    for (kind = 0; kind < STAMP_READERS; kind++)
        if (strcmp(word, reader_words[kind]) == 0)
            break;
    if (kind == STAMP_READERS)
        return wrong("no such kind", word);
    if (into->asked == COMMAND_WRITE && kind >= STAMP_KINDS)
        return wrong("write takes one of the six kinds", word);
    into->kind = kind;
    return true;
}

/* A command by its words; the second is null but for schedule's. */
typedef struct command_words {
    const char *first, *second;
    command asked;
} command_words;

static bool is_word(const char *wanted, const char *word)
{
    return wanted == NULL || (word != NULL && strcmp(wanted, word) == 0);
}

static bool no_such_command(char **words)
{
    if (strcmp(words[0], "schedule") == 0)
        return wrong("schedule check, schedule list, schedule holds or schedule make?", words[1]);
    return wrong("no such command", words[0]);
}

/* The command at the words, of which the last is null; *taken is how many it has. */
static bool parse_command(char **words, request *into, int *taken)
{
    static const command_words commands[] = {
        {"read", NULL, COMMAND_READ}, {"write", NULL, COMMAND_WRITE}, {"explain", NULL, COMMAND_EXPLAIN},
        {"instant", NULL, COMMAND_INSTANT}, {"restate", NULL, COMMAND_RESTATE}, {"difference", NULL, COMMAND_DIFFERENCE},
        {"add", NULL, COMMAND_ADD}, {"schedule", "check", COMMAND_CHECK}, {"schedule", "list", COMMAND_LIST},
        {"schedule", "holds", COMMAND_HOLDS}, {"schedule", "over", COMMAND_OVER}, {"schedule", "make", COMMAND_MAKE},
        {"schedule", "-h", COMMAND_HELP}, {"schedule", "--help", COMMAND_HELP},
        {"-h", NULL, COMMAND_HELP}, {"--help", NULL, COMMAND_HELP}, {"-V", NULL, COMMAND_RELEASE}
    };
    size_t at;
    for (at = 0; at < sizeof commands / sizeof commands[0]; at++) {
        if (is_word(commands[at].first, words[0]) && is_word(commands[at].second, words[1])) {
            into->asked = commands[at].asked;
            *taken = commands[at].second == NULL ? 1 : 2;
            return true;
        }
    }
    return no_such_command(words);
}

/* Options that write alone has. */
static bool parse_setting(char **argv, int *at, request *into)
{
    const char *word = argv[*at];
    if (strcmp(word, "--binary") != 0 && strcmp(word, "--version") != 0 && strcmp(word, "--digits") != 0)
        return wrong("no such option", word);
    if (into->asked != COMMAND_WRITE)
        return wrong("only write has the option", word);
    if (strcmp(word, "--binary") == 0) {
        into->settings.binary = true;
        return true;
    }
    if (!parse_number(argv[*at + 1], strcmp(word, "--digits") == 0 ? &into->settings.digits : &into->settings.version))
        return wrong("a number from 0 to 4294967295 must follow", word);
    ++*at;
    return true;
}

static bool parse_to(const char *word, request *into)
{
    if (into->asked != COMMAND_RESTATE)
        return wrong("only restate has the option", "--to");
    into->has_to = parse_offset(word, &into->to);
    return into->has_to || wrong("--to takes +hh:mm or -hh:mm, at most 23:59, and +00:00 for UTC", word);
}

/* A minus before a digit is the sign of a number: no option has a digit there. */
static bool is_option(const char *word)
{
    return word[0] == '-' && word[1] != '\0' && !is_digit(word[1]);
}

/* The moment is read when all words are known to be right. An option in its place was meant as one: no text is so. */
static bool parse_at(char *word, request *into)
{
    into->at = word;
    return (word != NULL && !is_option(word)) || wrong("--at takes the text of a datetimetz, or the word now", word);
}

static bool is_question(command asked)
{
    return asked == COMMAND_HOLDS || asked == COMMAND_OVER;
}

static bool is_of_question(const char *option)
{
    return strcmp(option, "--channel") == 0 || strcmp(option, "--at") == 0 || strcmp(option, "--instant") == 0;
}

/* Options that holds and over alone have. A channel is any number: the library tells which ones there are. */
static bool parse_question(const char *option, char *word, request *into)
{
    if (!is_question(into->asked))
        return wrong("only schedule holds has the option", option);
    if (strcmp(option, "--at") == 0)
        return parse_at(word, into);
    if (strcmp(option, "--channel") == 0) {
        into->has_channel = parse_number(word, &into->channel);
        return into->has_channel || wrong("a number from 0 to 4294967295 must follow", option);
    }
    into->has_instant = parse_signed(word, &into->instant);
    return into->has_instant || wrong("--instant takes a signed number of 64 bits", word);
}

/* The option at argv[*at], with its value if it has one; *at is left at the last word taken. argv ends with a null. */
static bool parse_option(char **argv, int *at, request *into)
{
    const char *word = argv[*at];
    if (strcmp(word, "--json") == 0)
        into->json = true;
    else if (strcmp(word, "--raw") == 0)
        into->raw = true;
    else if (strcmp(word, "-h") == 0 || strcmp(word, "--help") == 0)
        into->asked = COMMAND_HELP;
    else if (strcmp(word, "--to") == 0)
        return parse_to(argv[++*at], into);
    else if (is_of_question(word))
        return parse_question(word, argv[++*at], into);
    else
        return parse_setting(argv, at, into);
    return true;
}

/* A `-` that is no record: it may stand once. */
static bool add_standard_input(request *into)
{
    size_t at;
    for (at = 0; at < into->count; at++)
        if (into->records[at] == standard_input)
            return wrong("standard input is named twice", standard_input);
    into->records[into->count++] = standard_input;
    return true;
}

/* A question is asked of a channel, and at one moment. */
static bool question_fits(const request *what)
{
    if (!what->has_channel)
        return wrong("holds on which channel? --channel N tells it", NULL);
    if (what->at == NULL && !what->has_instant)
        return wrong("holds at which moment? --at TEXT or --instant MICROS tells it", NULL);
    if (what->at != NULL && what->has_instant)
        return wrong("the moment is told twice: either --at or --instant", NULL);
    return true;
}

/* Schedule files are octets in any case, and make prints nothing else. */
static bool schedule_fits(const request *what)
{
    if (what->raw)
        return wrong("a schedule is octets as they are: there is no --raw for it", NULL);
    if (what->asked == COMMAND_MAKE && what->json)
        return wrong("make prints octets: there is no --json for it", NULL);
    if (what->asked == COMMAND_MAKE && what->records[0] != standard_input)
        return wrong("make takes its lines from standard input", what->records[0]);
    if ((what->asked == COMMAND_LIST || what->asked == COMMAND_MAKE) && what->count > 1)
        return wrong("there is one schedule at a time to list or make", what->records[1]);
    if (what->asked == COMMAND_OVER && what->count != 2)
        return wrong("over takes two files, the plan and then the manual one", what->count > 2 ? what->records[2] : NULL);
    return !is_question(what->asked) || question_fits(what);
}

/* Raw octets can't be told apart, so they are those of one stamp. */
static bool raw_fits(const request *what)
{
    bool writes = what->asked == COMMAND_WRITE;
    if (writes && what->json)
        return wrong("write prints octets or objects: either --raw or --json", NULL);
    if (what->asked == COMMAND_DIFFERENCE)
        return wrong("--raw is for one stamp, and difference takes two", NULL);
    if (what->count > 1)
        return wrong("--raw is for one stamp", what->records[1]);
    if (!writes && what->records[0] != standard_input)
        return wrong("--raw takes the octets from standard input", what->records[0]);
    return true;
}

/* The words from argv[at] on: options are heeded, the others are the kind (first, if there is one) and the records. */
static bool parse_words(char **argv, int at, request *into)
{
    bool options = true, kind_due = into->asked == COMMAND_READ || into->asked == COMMAND_WRITE;
    for (; argv[at] != NULL; at++) {
        if (options && strcmp(argv[at], "--") == 0) {
            options = false;
        } else if (options && !kind_due && strcmp(argv[at], "-") == 0) {
            if (!add_standard_input(into))
                return false;
        } else if (options && is_option(argv[at])) {
            if (!parse_option(argv, &at, into))
                return false;
            if (into->asked == COMMAND_HELP)
                return true;
        } else if (kind_due) {
            if (!parse_kind(argv[at], into))
                return false;
            kind_due = false;
        } else {
            into->records[into->count++] = argv[at];
        }
    }
    return !kind_due || parse_kind(NULL, into);
}

/* What add adds: the last word, which is no record then. */
static bool take_micros(request *into)
{
    const char *word = into->count == 0 ? NULL : into->records[--into->count];
    return parse_signed(word, &into->micros)
        || wrong("the last word must be the microseconds to add, a signed number of 64 bits", word);
}

static bool parse_rest(char **argv, int at, request *into)
{
    if (!parse_words(argv, at, into))
        return false;
    if (into->asked == COMMAND_HELP)
        return true;
    if (into->asked == COMMAND_RESTATE && !into->has_to)
        return wrong("restate at which offset? --to OFFSET tells it", NULL);
    if (into->asked == COMMAND_ADD && !take_micros(into))
        return false;
    if (into->count == 0)
        into->records[into->count++] = standard_input;
    if (is_of_schedules(into->asked))
        return schedule_fits(into);
    return !into->raw || raw_fits(into);
}

bool parse_arguments(int argc, char **argv, request *into)
{
    int taken;
    into->kind = STAMP_DATE;
    into->settings = stamp_default_settings();
    into->has_to = false;
    into->to = 0;
    into->micros = 0;
    into->has_channel = false;
    into->channel = 0;
    into->at = NULL;
    into->has_instant = false;
    into->instant = 0;
    into->json = false;
    into->raw = false;
    into->records = argv;
    into->count = 0;
    if (argc < 2)
        return wrong("which command?", NULL);
    if (!parse_command(argv + 1, into, &taken))
        return false;
    if (into->asked == COMMAND_HELP || into->asked == COMMAND_RELEASE)
        return argv[taken + 1] == NULL || wrong("nothing may follow", argv[taken]);
    return parse_rest(argv, taken + 1, into);
}
