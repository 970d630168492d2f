/* The words of the command line. */
#define _GNU_SOURCE
#include "words.h"

#include <errno.h>
#include <getopt.h>
#include <limits.h>
#include <stdio.h>
#include <stdlib.h>
#include <string.h>
#include <unistd.h>

enum { FLUSH_SECONDS = 5, FOLDERS_UP = 5 };

/* The program below the top of the repository, where this one is tools/nofs/mount/out/nofs-mount. */
static const char *program_above(void)
{
    static char path[PATH_MAX + 8];
    ssize_t length = readlink("/proc/self/exe", path, PATH_MAX);
    path[length < 0 ? 0 : length] = 0;
    for (int n = 0; n < FOLDERS_UP; n++) {
        char *slash = strrchr(path, '/');
        if (slash) *slash = 0;
    }
    return strcat(path, "/nofs");
}

static int read_seconds(const char *text, double *seconds)
{
    char *end;
    errno = 0;
    *seconds = strtod(text, &end);
    return end != text && !*end && !errno && *seconds >= 0;
}

static enum command command_of(struct words *words, int is_new, int count, char **texts)
{
    if (is_new && count == 3) {
        words->image = texts[0], words->blocks = texts[1], words->inodes = texts[2];
        return NEW_IMAGE;
    }
    if (is_new || count != 2) return WRONG_WORDS;
    words->image = texts[0], words->folder = texts[1];
    return MOUNT_IMAGE;
}

struct words read_words(int count, char **texts)
{
    static const struct option options[] = {
        {"nofs", 1, 0, 'p'}, {"flush", 1, 0, 'f'}, {"new", 0, 0, 'n'}, {"help", 0, 0, 'h'}, {0, 0, 0, 0},
    };
    struct words words = {WRONG_WORDS, program_above(), FLUSH_SECONDS, NULL, NULL, NULL, NULL};
    int is_new = 0, is_right = 1;
    opterr = 0;
    for (int found; (found = getopt_long(count, texts, "h", options, NULL)) != -1;) {
        if (found == 'p') words.program = optarg;
        else if (found == 'n') is_new = 1;
        else if (found == 'f') is_right = is_right && read_seconds(optarg, &words.flush_seconds);
        else if (found != 'h') is_right = 0;
        else {
            words.command = SHOW_HELP;
            return words;
        }
    }
    if (is_right) words.command = command_of(&words, is_new, count - optind, texts + optind);
    return words;
}
