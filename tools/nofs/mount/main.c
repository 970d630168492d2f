/* Mounts a NoFS image as a directory, by frames of the program (docs/FORMAT.md, "Frames") and libfuse's low-level
 * calls. */
#define _GNU_SOURCE
#include "mount.h"
#include "words.h"

#include <errno.h>
#include <fcntl.h>
#include <stdarg.h>
#include <stdio.h>
#include <stdlib.h>
#include <string.h>
#include <sys/file.h>
#include <sys/wait.h>
#include <unistd.h>

enum { MOST_INODES = 65536, MOST_BLOCKS = 1048576, SLOTS_IN_VERSION_1 = 72, REFUSED = 1, NOT_DURABLE = 3 };

void tell(const char *format, ...)
{
    va_list values;
    va_start(values, format);
    fputs("nofs-mount: ", stderr);
    vfprintf(stderr, format, values);
    fputc('\n', stderr);
    va_end(values);
}

/* The numbers of an image, from the program: whatever its word is, and however its file is laid out */

static int see_inode(struct nofs *it, uint64_t number) { return nofs_see_inode(it, (uint32_t)number); }

/* The least number above `least` that is out of range. */
static int first_beyond(struct nofs *it, int see(struct nofs *, uint64_t), uint64_t least, uint64_t beyond,
                        uint64_t *found)
{
    while (beyond - least > 1) {
        uint64_t middle = least + (beyond - least) / 2;
        int answer = see(it, middle);
        if (answer < 0) return answer;
        if (answer == NOFS_BAD_RANGE) beyond = middle;
        else least = middle;
    }
    *found = beyond;
    return NOFS_OK;
}

static int read_numbers(struct mount *it, uint32_t *inodes)
{
    uint8_t bytes[NOFS_SLOT_BYTES];
    enum nofs_value value;
    uint64_t beyond = 0;
    int answer = first_beyond(&it->nofs, see_inode, 1, MOST_INODES + 1, &beyond);
    *inodes = (uint32_t)beyond - 1;
    if (!answer) answer = first_beyond(&it->nofs, nofs_see_block, 0, MOST_BLOCKS + 1, &it->blocks);
    if (answer) return answer;
    answer = nofs_get(&it->nofs, nofs_label, SLOTS_IN_VERSION_1, bytes, &value);
    uint64_t slots = answer == NOFS_TOO_LARGE ? SLOTS_IN_VERSION_1 : NOFS_FILE_SLOTS;
    it->most = slots * NOFS_SLOT_BYTES;
    return answer < 0 ? answer : NOFS_OK;
}

/* Why the program gave no frame */

/* No lock is kept: the program that serves the image takes it. */
static int is_locked(const char *path)
{
    int file = open(path, O_RDONLY | O_CLOEXEC | O_NONBLOCK);
    int is_used = file >= 0 && flock(file, LOCK_SH | LOCK_NB) && errno == EWOULDBLOCK;
    if (file >= 0) close(file);
    return is_used;
}

/* A word names files behind its colons, or is one. */
static int is_in_use(const char *word)
{
    int is_used = is_locked(word);
    for (const char *colon = word; !is_used && (colon = strchr(colon, ':')); ) {
        char *part = strdup(++colon), *end = part ? strchr(part, ':') : NULL;
        if (end) *end = 0;
        is_used = part && is_locked(part);
        free(part);
    }
    return is_used;
}

static void tell_why(const struct mount *it, const char *image)
{
    const char *said = it->nofs.said[0] ? it->nofs.said : "the program gave no frame";
    tell("%s: %s", image, is_in_use(image) ? "in use" : said);
}

/* Beginning and end */

static int begin(struct mount *it, const struct words *words)
{
    struct nofs_stat stat;
    uint32_t inodes;
    int answer = nofs_open(&it->nofs, words->program, words->image);
    if (!answer) answer = nofs_stat(&it->nofs, nofs_root, &stat);
    if (!answer) answer = read_numbers(it, &inodes);
    if (answer) {
        tell_why(it, words->image);
        return answer;
    }
    it->buffer = malloc(MOST_BYTES + 2 * NOFS_SLOT_BYTES);
    if (!nodes_open(&it->nodes, inodes, getuid(), getgid()) || !it->buffer) return NOFS_NO_MEMORY;
    if (!(it->root = nodes_add(&it->nodes, nofs_root, &stat))) return NOFS_NO_MEMORY;
    it->root->seen = 1;
    answer = hidden_open(it);
    if (!answer) answer = count_folders(it, it->root);
    if (answer) tell("%s: the program ended, or its frames are not those of NoFS (%d)", words->image, answer);
    return answer;
}

/* The attributes, and the removed files that nobody closed; then the program's status. */
static int end(struct mount *it)
{
    kernel_wait_for_notices();
    hidden_sweep(it);
    int answer = mount_flush(it, 1);
    if (answer) tell("the last flush failed (refusal %d)", answer);
    int status = nofs_close(&it->nofs);
    return status ? status : answer ? NOT_DURABLE : 0;
}

static int serve(struct mount *it, const struct words *words)
{
    it->nofs.on_end = kernel_forget_entries;
    it->nofs.with = it;
    kernel_serve(it, words->folder, words->flush_seconds);
    it->nofs.on_end = NULL;
    fuse_session_unmount(it->session);
    return end(it);
}

static int mount_image(const struct words *words)
{
    static struct mount it;
    int status = REFUSED;
    kernel_take_signals();
    int answer = begin(&it, words);
    if (!answer && !(answer = kernel_mount(&it, words->image, words->folder))) status = serve(&it, words);
    else if (!it.nofs.ended && it.session) tell("%s: not mounted", words->folder);
    nofs_close(&it.nofs);
    if (it.session) fuse_session_destroy(it.session);
    listings_close(&it);
    nodes_close(&it.nodes);
    free(it.buffer);
    return status;
}

/* A new image */

static int run(const char *const *words, int is_silent)
{
    int status = 0, nothing = open("/dev/null", O_RDWR | O_CLOEXEC);
    pid_t child = fork();
    if (child == 0) {
        dup2(nothing, 0);
        if (is_silent) dup2(nothing, 1);
        execv(words[0], (char *const *)words);
        _exit(127);
    }
    close(nothing);
    if (child < 0 || waitpid(child, &status, 0) < 0) return 127;
    return WIFEXITED(status) ? WEXITSTATUS(status) : 128 + WTERMSIG(status);
}

/* Of version 2 of the format, in which a file may have 4,268,032 bytes. */
static int make_image(const struct words *words)
{
    const char *const make[] = {words->program, words->image, "new", words->blocks, words->inodes, NULL};
    const char *const raise[] = {words->program, words->image, "upgrade", NULL};
    int status = run(make, 0);
    return status ? status : run(raise, 1);
}

int main(int count, char **texts)
{
    struct words words = read_words(count, texts);
    if (words.command == MOUNT_IMAGE) return mount_image(&words);
    if (words.command == NEW_IMAGE) return make_image(&words);
    if (words.command == SHOW_HELP) {
        print_help();
        return 0;
    }
    fputs("nofs-mount: the words are not right; --help says what they are\n", stderr);
    return 2;
}
