/* zkv: a label register in a file, from the command line. See host/zkv.1 for what each command does.
 *
 * Here: the command line. The commands are in zkv_write.c (format, put, delete, clean), zkv_load.c, zkv_copy.c,
 * zkv_read.c (get, scan, check), zkv_stat.c, zkv_info.c (info, history) and zkv_list.c (list, sheet, dump, digest);
 * what they share in zkv_register.c and zkv_labels.c. The file under the image is the library's (zitskvoze_file.h).
 * All that is said of the image's inside comes from the library's calls. */
#define _GNU_SOURCE
#include <errno.h>
#include <inttypes.h>
#include <stdio.h>
#include <stdlib.h>
#include <string.h>

#include "zkv.h"

/* ---- options, by the commands that have them */

enum { FORCE = 1, STATION = 2, CENTRE = 4, EMPTY = 8, NO_CLEAN = 16, PAUSE = 32, WAIT = 64, JSON = 128, AGAINST = 256, SVG = 512,
       LINE = 1024, VERSION = 2048, IF_VERSION = 4096, CHUNK_SIZE = 8192 };

static const struct option {
    const char *name;
    unsigned bit;
    const char *behind;         /* what the word behind it is; NULL: it has none */
    uint64_t most;              /* of a number; 0: it is a digest or a file's name */
} options[] = {
    {"--force", FORCE, NULL, 0},
    {"--station", STATION, "a station number: decimal, below 2^64", UINT64_MAX},
    {"--centre", CENTRE, "a centre number: decimal, below 2^64", UINT64_MAX},
    {"--empty", EMPTY, NULL, 0},
    {"--no-clean", NO_CLEAN, NULL, 0},
    {"--pause", PAUSE, "microseconds, at most 60000000", 60000000},
    {"--wait", WAIT, "seconds, at most 1000000", 1000000},
    {"--json", JSON, NULL, 0},
    {"--against", AGAINST, "a digest: 64 hexadecimal digits", 0},
    {"--svg", SVG, "a file's name, or -", 0},
    {"--line", LINE, NULL, 0},
    {"--version", VERSION, NULL, 0},
    {"--if-version", IF_VERSION, "a version: decimal, below 2^64", UINT64_MAX},
    {"--chunk-size", CHUNK_SIZE, "the bytes of a chunk: 4096 or 65536", UINT64_MAX},
};

static const struct command {
    const char *name;
    int words, more;            /* behind FILE, and how many more there may be */
    unsigned options;
    int (*run)(const char *file, char **word, const struct options *o);
    const char *usage;
} commands[] = {
    {"format", 1, 0, CHUNK_SIZE | FORCE | STATION | CENTRE | PAUSE | WAIT, command_format,
     "FILE CHUNKS [--chunk-size BYTES] [--station N] [--centre N] [--force] [--pause MICROSECONDS] [--wait SECONDS]"},
    {"put", 2, 0, IF_VERSION | EMPTY | NO_CLEAN | PAUSE | WAIT, command_put,
     "FILE KEY VALUEFILE|- [--if-version N] [--empty] [--no-clean] [--pause MICROSECONDS] [--wait SECONDS]"},
    {"get", 1, 0, VERSION | WAIT, command_get, "FILE KEY [--version] [--wait SECONDS]"},
    {"scan", 2, 0, EMPTY | LINE | WAIT, command_scan, "FILE KEY SCANFILE|- [--line] [--empty] [--wait SECONDS]"},
    {"delete", 1, 0, IF_VERSION | NO_CLEAN | PAUSE | WAIT, command_delete,
     "FILE KEY [--if-version N] [--no-clean] [--pause MICROSECONDS] [--wait SECONDS]"},
    {"clean", 0, 1, PAUSE | WAIT, command_clean, "FILE [CHUNK] [--pause MICROSECONDS] [--wait SECONDS]"},
    {"list", 0, 0, JSON | WAIT, command_list, "FILE [--json] [--wait SECONDS]"},
    {"sheet", 0, 0, WAIT, command_sheet, "FILE [--wait SECONDS]"},
    {"stat", 0, 0, JSON | WAIT, command_stat, "FILE [--json] [--wait SECONDS]"},
    {"info", 0, 0, SVG | WAIT, command_info, "FILE [--svg OUT|-] [--wait SECONDS]"},
    {"history", 1, 0, WAIT, command_history, "FILE KEY [--wait SECONDS]"},
    {"check", 0, 0, AGAINST | JSON | WAIT, command_check, "FILE [--against SUM] [--json] [--wait SECONDS]"},
    {"digest", 0, 0, WAIT, command_digest, "FILE [--wait SECONDS]"},
    {"dump", 0, 0, WAIT, command_dump, "FILE [--wait SECONDS]"},
    {"load", 1, 0, EMPTY | NO_CLEAN | PAUSE | WAIT, command_load,
     "FILE LIST|- [--empty] [--no-clean] [--pause MICROSECONDS] [--wait SECONDS]"},
    {"copy", 1, 1, CHUNK_SIZE | PAUSE | WAIT, command_copy,
     "FILE NEW [CHUNKS] [--chunk-size BYTES] [--pause MICROSECONDS] [--wait SECONDS]"},
};

enum { OPTIONS = sizeof options / sizeof *options, COMMANDS = sizeof commands / sizeof *commands, WORDS_MAX = 3 };

static void print_usage(FILE *to)
{
    for (size_t i = 0; i < COMMANDS; i++) {
        fprintf(to, "%s zkv %s %s\n", i == 0 ? "usage:" : "      ", commands[i].name, commands[i].usage);
    }
    fputs("       zkv help | -h | --help | --version\n"
          "       zkv COMMAND --help\n"
          "exit status: 0 done (of scan and check: a match), 1 the key is absent, 2 usage or system, 3 refused, 4 put aside,\n"
          "             5 another version stands than --if-version names\n", to);
}

static void print_usage_of(FILE *to, const struct command *c)
{
    fprintf(to, "usage: zkv %s %s\n", c->name, c->usage);
}

/* What is wrong with the command line, and how the command is used. */
static int misused(const struct command *c, const char *what, const char *word)
{
    fprintf(stderr, "zkv: %s: %s%s%s\n", c->name, what, word != NULL ? ": " : "", word != NULL ? word : "");
    print_usage_of(stderr, c);
    return TROUBLE;
}

bool number_of(const char *s, uint64_t *n)
{
    if (*s < '0' || *s > '9') {
        return false;
    }
    char *end;
    errno = 0;
    *n = strtoull(s, &end, 10);
    return errno == 0 && *end == 0;
}

int key_of(const char *file, const char *given, uint64_t *key)
{
    if (!number_of(given, key)) {
        return trouble(file, "%s is no key: a key is a decimal number below 2^64", given);
    }
    if (given[0] == '0' && given[1] != 0) {
        fprintf(stderr, "zkv: %s: %s is key %" PRIu64 ": leading zeros are no part of a key\n", file, given, *key);
    }
    return DONE;
}

static void set_option(struct options *o, unsigned bit, uint64_t n, const char *given)
{
    switch (bit) {
    case FORCE:
        o->force = true;
        break;
    case STATION:
        o->station_given = true;
        o->station = n;
        break;
    case CENTRE:
        o->centre_given = true;
        o->centre = n;
        break;
    case EMPTY:
        o->empty = true;
        break;
    case NO_CLEAN:
        o->no_clean = true;
        break;
    case PAUSE:
        o->pause_us = (long)n;
        break;
    case JSON:
        o->json = true;
        break;
    case AGAINST:
        o->against = given;
        break;
    case SVG:
        o->svg = given;
        break;
    case LINE:
        o->line = true;
        break;
    case VERSION:
        o->version = true;
        break;
    case IF_VERSION:
        o->if_version_given = true;
        o->if_version = n;
        break;
    case CHUNK_SIZE:
        o->chunk_bytes = n;
        break;
    default:
        o->wait = (long)n;
    }
}

static const struct option *option_named(const char *name)
{
    for (size_t i = 0; i < OPTIONS; i++) {
        if (strcmp(options[i].name, name) == 0) {
            return &options[i];
        }
    }
    return NULL;
}

/* Whether the word behind an option is what it needs; where that is a number, in *n. */
static bool fits(const struct option *p, const char *given, uint64_t *n)
{
    if (p->bit == SVG) {
        return *given != 0;
    }
    if (p->most == 0) {
        return strlen(given) == 64 && strspn(given, "0123456789abcdefABCDEF") == 64;
    }
    return number_of(given, n) && *n <= p->most && (p->bit != CHUNK_SIZE || *n == ZKV_CHUNK_BYTES || *n == ZKV_LARGE_CHUNK_BYTES);
}

/* The words and options behind the command's name. A question for help stands alone: among words it may be a file's
 * name that was meant, and the command is not done. */
static int play(const struct command *c, int count, char **argument)
{
    char *word[WORDS_MAX + 1] = {NULL};
    struct options o = {.wait = -1};
    int words = 0;
    bool only_words = false;
    if (count == 1 && strcmp(argument[0], "--help") == 0) {
        print_usage_of(stdout, c);
        return DONE;
    }
    for (int i = 0; i < count; i++) {
        char *a = argument[i];
        if (only_words || strncmp(a, "--", 2) != 0) {
            if (words == 1 + c->words + c->more) {
                return misused(c, "a word too many", a);
            }
            word[words++] = a;
            continue;
        }
        if (strcmp(a, "--") == 0) {
            only_words = true;
            continue;
        }
        const struct option *p = option_named(a);
        uint64_t n = 0;
        if (p == NULL || !(c->options & p->bit)) {
            return misused(c, "it has no such option", a);
        }
        if (p->behind != NULL && (++i == count || !fits(p, argument[i], &n))) {
            char what[100];
            snprintf(what, sizeof what, "%s needs %s", a, p->behind);
            return misused(c, what, i < count ? argument[i] : NULL);
        }
        set_option(&o, p->bit, n, argument[i]);
    }
    if (words < 1 + c->words) {
        return misused(c, words == 0 ? "FILE is missing" : "a word is missing behind", words == 0 ? NULL : word[words - 1]);
    }
    return c->run(word[0], word + 1, &o);
}

static const struct command *command_named(const char *name)
{
    for (size_t i = 0; i < COMMANDS; i++) {
        if (strcmp(commands[i].name, name) == 0) {
            return &commands[i];
        }
    }
    return NULL;
}

static int command(int count, char **argument)
{
    if (count < 2) {
        print_usage(stderr);
        return TROUBLE;
    }
    const char *name = argument[1];
    bool help = strcmp(name, "help") == 0 || strcmp(name, "--help") == 0 || strcmp(name, "-h") == 0;
    bool version = strcmp(name, "--version") == 0;
    const struct command *c = command_named(help && count == 3 ? argument[2] : name);
    if (c != NULL && help) {
        print_usage_of(stdout, c);
        return DONE;
    }
    if (c != NULL) {
        return play(c, count - 2, argument + 2);
    }
    if (count == 2 && help) {
        print_usage(stdout);
        return DONE;
    }
    if (count == 2 && version) {
        printf("zkv %s\n", zkv_version());
        return DONE;
    }
    bool asked = help && count == 3, alone = !asked && (help || version);
    fprintf(stderr, "zkv: %s: %s\n", asked ? argument[2] : name, alone ? "it stands alone" : "there is no such command");
    print_usage(stderr);
    return TROUBLE;
}

int main(int count, char **argument)
{
    if (!zkv_file_guard("zkv")) {
        return TROUBLE;
    }
    int status = command(count, argument);
    if (fflush(stdout) != 0 || ferror(stdout)) {
        return trouble("standard output", "%s", strerror(errno));
    }
    return status;
}
