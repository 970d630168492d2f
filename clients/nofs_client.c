/* Frames of NoFS over two pipes, which are the program's standard input and output (docs/FORMAT.md, "Frames"). */
#define _GNU_SOURCE
#include "nofs_client.h"

#include <endian.h>
#include <errno.h>
#include <fcntl.h>
#include <poll.h>
#include <signal.h>
#include <spawn.h>
#include <stdlib.h>
#include <string.h>
#include <sys/uio.h>
#include <sys/wait.h>
#include <time.h>
#include <unistd.h>

enum {
    STREAM_BYTES = 16777216,    /* of a stream, at most */
    /* of them are kept to examine by, so that a step is asked again in the session that refused it */
    RESERVE = 1 << 16,
    ROOM = 1 << 18,             /* for what is received at once */
    PIPE_BYTES = 1 << 20,
    LARGE = 1 << 14,
    BODY_BYTES = 1100,
    SEEN_AT_ONCE = 64,          /* often nothing but the last of an image is free */
    ROUNDS = 1 << 15,           /* of examining, which is twice the blocks of the largest image */
    GRACE = 200,                /* hundredths of a second, for a program that was told to end */
    NOT_STARTED = 127           /* the status of a program that could not be */
};

const struct nofs_at nofs_root = {1, 1}, nofs_label = {2, 2};

/* Memory: what finds none is noted, and the batch is not sent */

static int grow(struct nofs_bytes *it, size_t more)
{
    if (it->length + more <= it->room) return 1;
    size_t room = 2 * (it->length + more);
    uint8_t *made = realloc(it->bytes, room);
    if (!made) return 0;
    it->bytes = made;
    it->room = room;
    return 1;
}

static int grow_replies(struct nofs *it)
{
    if (it->count < it->room) return 1;
    size_t room = it->room ? 2 * it->room : 64;
    size_t *starts = realloc(it->starts, (room + 1) * sizeof *starts);
    if (starts) it->starts = starts;
    struct nofs_reply *replies = realloc(it->replies, room * sizeof *replies);
    if (replies) it->replies = replies;
    if (!starts || !replies) return 0;
    it->room = room;
    return 1;
}

/* The session */

/* In a session of its own: a signal from the terminal ends the program only by way of its caller, which may flush
 * before. A fork would copy what the caller has, and each page that it writes next. */
static int spawn(struct nofs *it, int from, int to)
{
    char *words[] = {(char *)(uintptr_t)it->program, (char *)(uintptr_t)it->image, "wire", NULL};
    posix_spawn_file_actions_t files;
    posix_spawnattr_t how;
    sigset_t none;
    sigemptyset(&none);
    int error = posix_spawn_file_actions_init(&files);
    if (error) return 0;
    if (!(error = posix_spawnattr_init(&how))) {
        posix_spawnattr_setsigmask(&how, &none);
        posix_spawnattr_setflags(&how, POSIX_SPAWN_SETSID | POSIX_SPAWN_SETSIGMASK);
        error = posix_spawn_file_actions_adddup2(&files, from, 0);
        if (!error) error = posix_spawn_file_actions_adddup2(&files, to, 1);
        if (!error) error = posix_spawn(&it->child, it->program, &files, &how, words, environ);
        posix_spawnattr_destroy(&how);
    }
    posix_spawn_file_actions_destroy(&files);
    return !error;
}

/* A descriptor above those of the program's standard files, which it must not be closed or taken for. */
static int above_standard(int file)
{
    int moved = file < 0 || file > 2 ? file : fcntl(file, F_DUPFD_CLOEXEC, 3);
    if (moved != file) close(file);
    return moved;
}

/* One that is larger takes a large batch at once; one that can't grow does as well. */
static int make_pipe(int ends[2])
{
    if (pipe2(ends, O_CLOEXEC)) return 0;
    for (int n = 0; n < 2; n++) ends[n] = above_standard(ends[n]);
    if (ends[0] < 0 || ends[1] < 0) return 0;
    fcntl(ends[1], F_SETPIPE_SZ, PIPE_BYTES);
    return 1;
}

static void close_all(const int *files, int count)
{
    for (int n = 0; n < count; n++)
        if (files[n] >= 0) close(files[n]);
}

static int start(struct nofs *it)
{
    int ends[4] = {-1, -1, -1, -1};     /* to the program, and from it: where it is read, and where it is written */
    struct sigaction broken;
    if (!make_pipe(ends) || !make_pipe(ends + 2) || fcntl(ends[1], F_SETFL, O_NONBLOCK)) {
        close_all(ends, 4);
        return NOFS_ENDED;
    }
    if (!spawn(it, ends[0], ends[3])) {     /* as one that ended at once, which the first call tells */
        close_all(ends, 4);
        it->status = NOT_STARTED;
        return NOFS_OK;
    }
    close(ends[0]);
    close(ends[3]);
    it->to = ends[1];
    it->from = ends[2];
    it->sent = 0;
    it->is_quiet = !sigaction(SIGPIPE, NULL, &broken) && broken.sa_handler == SIG_IGN;
    return NOFS_OK;
}

/* One that goes on without a client that takes its replies is ended by force. */
static int wait_with_grace(pid_t child, int *status)
{
    const struct timespec hundredth = {0, 10000000};
    for (int n = 0; n < GRACE; n++) {
        pid_t done = waitpid(child, status, WNOHANG);
        if (done == child || (done < 0 && errno != EINTR)) return done == child;
        nanosleep(&hundredth, NULL);
    }
    kill(child, SIGKILL);
    return 0;
}

static int end_program(struct nofs *it, int with_grace)
{
    int status = 0, done;
    close(it->to);
    if (!with_grace || !wait_with_grace(it->child, &status))
        while ((done = waitpid(it->child, &status, 0)) < 0 && errno == EINTR) {}
    close(it->from);
    it->to = it->from = -1;
    return WIFEXITED(status) ? WEXITSTATUS(status) : 128 + WTERMSIG(status);
}

/* Waits for some. */
static int receive(struct nofs *it)
{
    if (it->in.room - it->in.length < ROOM / 4 && !grow(&it->in, ROOM)) return NOFS_ENDED;
    ssize_t got = read(it->from, it->in.bytes + it->in.length, it->in.room - it->in.length);
    if (got > 0) it->in.length += (size_t)got;
    return got > 0 || (got < 0 && errno == EINTR) ? NOFS_OK : NOFS_ENDED;
}

/* A program that refuses the image says so on the stream, in a line that is no frame; it may have ended before it was
 * given anything. */
static void keep_said(struct nofs *it)
{
    struct pollfd end = {it->from, POLLIN, 0};
    size_t length = 0;
    if (it->in.length == 0 && it->from >= 0 && poll(&end, 1, 0) > 0) receive(it);
    for (; length < it->in.length && length + 1 < sizeof it->said; length++) {
        char said = (char)it->in.bytes[length];
        if (said < ' ' || said > '~') break;
        it->said[length] = said;
    }
    it->said[length] = 0;
}

static int ended(struct nofs *it)
{
    keep_said(it);
    if (it->to >= 0) it->status = end_program(it, 1);
    else if (!it->status) it->status = NOT_STARTED;
    it->ended = 1;
    if (it->on_end) it->on_end(it->with);
    return NOFS_ENDED;
}

int nofs_open(struct nofs *it, const char *program, const char *image)
{
    memset(it, 0, sizeof *it);
    it->program = program;
    it->image = image;
    it->to = it->from = -1;
    return start(it);
}

int nofs_again(struct nofs *it)
{
    it->ended = 0;
    return it->to >= 0 || start(it) == NOFS_OK ? NOFS_OK : ended(it);
}

int nofs_close(struct nofs *it)
{
    int status = it->to < 0 ? it->status : end_program(it, 0);
    free(it->out.bytes);
    free(it->in.bytes);
    free(it->starts);
    free(it->replies);
    memset(it, 0, sizeof *it);
    it->to = it->from = -1;
    it->ended = 1;
    it->status = status;
    return status;
}

int nofs_watch(struct nofs *it)
{
    struct pollfd end = {it->from, POLLIN, 0};
    if (it->ended) return NOFS_ENDED;
    it->in.length = 0;
    return it->from < 0 || poll(&end, 1, 0) > 0 ? ended(it) : NOFS_OK;
}

/* A batch */

void nofs_begin(struct nofs *it)
{
    it->out.length = it->count = 0;
    it->no_memory = 0;
}

static void put_number(uint8_t *to, uint64_t number, int bytes)
{
    number = htole64(number);
    memcpy(to, &number, (size_t)bytes);
}

static uint64_t get_number(const uint8_t *from, int bytes)
{
    uint64_t number = 0;
    memcpy(&number, from, (size_t)bytes);
    return le64toh(number);
}

/* What is spelled is given the place where it goes, and gives the one behind it. */
static uint8_t *spell(uint8_t *to, uint64_t number, int bytes)
{
    put_number(to, number, bytes);
    return to + bytes;
}

static uint8_t *spell_at(uint8_t *to, struct nofs_at at) { return spell(spell(to, at.inode, 4), at.generation, 8); }

/* A name that is too long is spelled with its first bytes, one too many, and refused by the program. */
static uint8_t *spell_name(uint8_t *to, const char *name)
{
    size_t length = strlen(name);
    if (length > NOFS_NAME_BYTES) length = NOFS_NAME_BYTES + 1;
    *to = (uint8_t)length;
    memcpy(to + 1, name, length);
    return to + 1 + length;
}

/* Begins a frame, with room for the largest one, and gives where its body goes on; NULL where there is no memory. */
static uint8_t *begin_frame(struct nofs *it, int step)
{
    if (it->no_memory || !grow(&it->out, 4 + BODY_BYTES) || !grow_replies(it)) {
        it->no_memory = 1;
        return NULL;
    }
    it->starts[it->count] = it->out.length;
    return spell(it->out.bytes + it->out.length + 4, (uint64_t)step, 1);
}

static void end_frame(struct nofs *it, const uint8_t *end)
{
    uint8_t *frame = it->out.bytes + it->out.length;
    size_t length = (size_t)(end - frame);
    put_number(frame, length - 4, 4);
    it->out.length += length;
    it->count++;
}

enum step { LOOK = 1, MAKE, LINK, DROP, RENAME, LIST, GET, PUT, RESIZE, STAT, FLUSH, SEE_INODE, SEE_BLOCK };

static uint8_t *begin_at(struct nofs *it, enum step step, struct nofs_at at)
{
    if ((step >= MAKE && step <= RENAME) || step == PUT || step == RESIZE) it->changed = 1;
    if (step >= MAKE && step <= RENAME) it->names_changed++;
    uint8_t *to = begin_frame(it, step);
    return to ? spell_at(to, at) : NULL;
}

static uint8_t *begin_named(struct nofs *it, enum step step, struct nofs_at directory, const char *name)
{
    uint8_t *to = begin_at(it, step, directory);
    return to ? spell_name(to, name) : NULL;
}

static void add_numbered(struct nofs *it, enum step step, struct nofs_at at, uint64_t number)
{
    uint8_t *to = begin_at(it, step, at);
    if (to) end_frame(it, spell(to, number, 8));
}

void nofs_add_look(struct nofs *it, struct nofs_at directory, const char *name)
{
    uint8_t *to = begin_named(it, LOOK, directory, name);
    if (to) end_frame(it, to);
}

void nofs_add_make(struct nofs *it, struct nofs_at directory, const char *name, enum nofs_kind kind)
{
    uint8_t *to = begin_named(it, MAKE, directory, name);
    if (to) end_frame(it, spell(to, kind, 1));
}

void nofs_add_link(struct nofs *it, struct nofs_at directory, const char *name, struct nofs_at file)
{
    uint8_t *to = begin_named(it, LINK, directory, name);
    if (to) end_frame(it, spell_at(to, file));
}

void nofs_add_drop(struct nofs *it, struct nofs_at directory, const char *name)
{
    uint8_t *to = begin_named(it, DROP, directory, name);
    if (to) end_frame(it, to);
}

void nofs_add_rename(struct nofs *it, struct nofs_at directory, const char *name, const char *new_name)
{
    uint8_t *to = begin_named(it, RENAME, directory, name);
    if (to) end_frame(it, spell_name(to, new_name));
}

void nofs_add_list(struct nofs *it, struct nofs_at directory, uint64_t slot)
{
    add_numbered(it, LIST, directory, slot);
}
void nofs_add_get(struct nofs *it, struct nofs_at file, uint64_t slot) { add_numbered(it, GET, file, slot); }
void nofs_add_resize(struct nofs *it, struct nofs_at file, uint64_t size) { add_numbered(it, RESIZE, file, size); }

/* Bytes past a slot are refused by the program, of which it is told by one byte too many. */
void nofs_add_put(struct nofs *it, struct nofs_at file, uint64_t slot, uint32_t place, const void *bytes, size_t length)
{
    uint8_t *to = begin_at(it, PUT, file);
    if (!to) return;
    if (length > NOFS_SLOT_BYTES) place = NOFS_SLOT_BYTES, length = 1;
    to = spell(spell(to, slot, 8), place, 4);
    /* a copy of a bounded length is no call of the library by memcpy, and slower */
    memmove(to, bytes, length);
    end_frame(it, to + length);
}

void nofs_add_stat(struct nofs *it, struct nofs_at at)
{
    uint8_t *to = begin_at(it, STAT, at);
    if (to) end_frame(it, to);
}

void nofs_add_flush(struct nofs *it)
{
    const struct nofs_at all = {0, 0};
    uint8_t *to = begin_at(it, FLUSH, all);
    if (to) end_frame(it, to);
}

void nofs_add_see_inode(struct nofs *it, uint32_t inode)
{
    uint8_t *to = begin_frame(it, SEE_INODE);
    if (to) end_frame(it, spell(to, inode, 4));
}

void nofs_add_see_block(struct nofs *it, uint64_t block)
{
    uint8_t *to = begin_frame(it, SEE_BLOCK);
    if (to) end_frame(it, spell(to, block, 8));
}

/* The exchange */

/* How many whole frames there are from `*at` on, which moves behind them; -1 where one has no right length. */
static long whole_frames(const struct nofs_bytes *in, size_t *at)
{
    long count = 0;
    while (in->length - *at >= 4) {
        size_t length = (size_t)get_number(in->bytes + *at, 4);
        if (length < 1 || length > BODY_BYTES) return -1;
        if (in->length - *at - 4 < length) break;
        *at += 4 + length;
        count++;
    }
    return count;
}

/* A large batch goes without being copied: it stands until its replies are there. */
static ssize_t pass(int to, const uint8_t *from, size_t length)
{
    const struct iovec all = {(void *)(uintptr_t)from, length};
    ssize_t some = length < LARGE ? 0 : vmsplice(to, &all, 1, SPLICE_F_NONBLOCK);
    return some > 0 || (some < 0 && errno != EINVAL && errno != ENOSYS) ? some : write(to, from, length);
}

/* A program that is gone is no signal to the caller. */
static ssize_t pass_quietly(const struct nofs *it, const uint8_t *from, size_t length)
{
    const struct timespec at_once = {0, 0};
    sigset_t broken, old;
    if (it->is_quiet) return pass(it->to, from, length);
    sigemptyset(&broken);
    sigaddset(&broken, SIGPIPE);
    pthread_sigmask(SIG_BLOCK, &broken, &old);
    ssize_t some = pass(it->to, from, length);
    int error = errno;
    if (some < 0 && error == EPIPE && !sigismember(&old, SIGPIPE)) sigtimedwait(&broken, NULL, &at_once);
    pthread_sigmask(SIG_SETMASK, &old, NULL);
    errno = error;
    return some;
}

/* Gives what goes without waiting. */
static int give(const struct nofs *it, const uint8_t *from, size_t length, size_t *put)
{
    ssize_t some = pass_quietly(it, from + *put, length - *put);
    if (some > 0) *put += (size_t)some;
    return some > 0 || errno == EINTR || errno == EAGAIN ? NOFS_OK : NOFS_ENDED;
}

/* Waits for replies, or for room while something is left to give; and whether there are replies. */
static int wait_for_both(const struct nofs *it, int *is_there)
{
    struct pollfd ends[2] = {{it->from, POLLIN, 0}, {it->to, POLLOUT, 0}};
    if (poll(ends, 2, -1) < 0 && errno != EINTR) return NOFS_ENDED;
    *is_there = ends[0].revents != 0;
    return NOFS_OK;
}

/* Both directions at once: the program takes nothing where nobody takes its replies. Once all is given, a
 * read waits. */
static int pump(struct nofs *it, const uint8_t *from, size_t length, size_t count)
{
    size_t put = 0, seen = 0, place = 0;
    while (seen < count) {
        int is_there = 1;
        if (put < length && give(it, from, length, &put)) return NOFS_ENDED;
        if (put < length && wait_for_both(it, &is_there)) return NOFS_ENDED;
        if (is_there && receive(it)) return NOFS_ENDED;
        long more = whole_frames(&it->in, &place);
        if (more < 0) return NOFS_ENDED;
        seen += (size_t)more;
    }
    return seen == count && place == it->in.length && put == length ? NOFS_OK : NOFS_ENDED;
}

static void read_replies(const struct nofs *it, struct nofs_reply *into, size_t count)
{
    const uint8_t *at = it->in.bytes;
    for (size_t n = 0; n < count; n++) {
        size_t length = (size_t)get_number(at, 4);
        into[n] = (struct nofs_reply){at[4], at + 5, length - 1};
        at += 4 + length;
    }
}

int nofs_renew(struct nofs *it)
{
    if (it->ended) return NOFS_ENDED;
    it->in.length = 0;
    it->status = end_program(it, 0);
    return it->status || start(it) ? ended(it) : NOFS_OK;
}

static int exchange(struct nofs *it, const uint8_t *from, size_t length, struct nofs_reply *into, size_t count,
                    size_t reserve)
{
    if (it->ended || (it->sent + length > STREAM_BYTES - reserve && nofs_renew(it))) return NOFS_ENDED;
    it->in.length = 0;
    it->sent += length;
    it->steps += count;
    it->batches++;
    if (pump(it, from, length, count)) return ended(it);
    read_replies(it, into, count);
    return NOFS_OK;
}

int nofs_send(struct nofs *it)
{
    if (it->no_memory) return NOFS_NO_MEMORY;
    return it->count ? exchange(it, it->out.bytes, it->out.length, it->replies, it->count, RESERVE) : NOFS_OK;
}

/* Examines blocks or inodes from the least on that was not. The later ones may lie behind the last. */
static int examine(struct nofs *it, int refusal, uint64_t next)
{
    uint8_t out[SEEN_AT_ONCE * 13];
    struct nofs_reply seen[SEEN_AT_ONCE];
    int bytes = refusal == NOFS_FULL ? 8 : 4;
    size_t each = 5 + (size_t)bytes;
    for (size_t n = 0; n < SEEN_AT_ONCE; n++) {
        put_number(out + n * each, (uint64_t)bytes + 1, 4);
        out[n * each + 4] = refusal == NOFS_FULL ? SEE_BLOCK : SEE_INODE;
        put_number(out + n * each + 5, next + n, bytes);
    }
    int answer = exchange(it, out, SEEN_AT_ONCE * each, seen, SEEN_AT_ONCE, 0);
    return answer ? answer : seen[0].answer;
}

/* One step of the batch is sent again. */
static int send_again(struct nofs *it, size_t place)
{
    size_t from = it->starts[place], to = place + 1 < it->count ? it->starts[place + 1] : it->out.length;
    return exchange(it, it->out.bytes + from, to - from, &it->replies[place], 1, 0);
}

/* One step of the batch, whose reply is known, until it is accepted or refused for good. */
static int persist(struct nofs *it, size_t place)
{
    struct nofs_reply *reply = &it->replies[place];
    for (int round = 0; round < ROUNDS; round++) {
        size_t at = reply->answer == NOFS_FULL ? 16 : 0;
        if ((reply->answer != NOFS_FULL && reply->answer != NOFS_INODES_FULL) || reply->length < at + 16) break;
        if (get_number(reply->bytes + at, 8) == 0) break;
        int answer = examine(it, reply->answer, get_number(reply->bytes + at + 8, 8));
        if (!answer) answer = send_again(it, place);
        if (answer) return answer;
    }
    return reply->answer;
}

int nofs_claim(struct nofs *it, size_t *done)
{
    size_t place = 0;
    int answer = nofs_send(it);
    while (!answer && place < it->count && !it->replies[place].answer) place++;
    while (!answer && place < it->count && !(answer = persist(it, place)))
        /* it may have been refused for the sake of that one */
        if (++place < it->count) answer = send_again(it, place);
    if (done) *done = place;
    return answer;
}

/* Replies */

/* What is left of a body; one that is too short, or not used up, comes from no NoFS. */
struct body { const uint8_t *bytes; size_t length; int bad; };

static struct body body_of(const struct nofs_reply *reply) { return (struct body){reply->bytes, reply->length, 0}; }

static const uint8_t *take(struct body *it, size_t count)
{
    static const uint8_t none[NOFS_SLOT_BYTES];
    if (it->length < count) {
        it->bad = 1;
        return none;
    }
    it->bytes += count;
    it->length -= count;
    return it->bytes - count;
}

static uint64_t number(struct body *it, int bytes) { return get_number(take(it, (size_t)bytes), bytes); }

static struct nofs_at read_at(struct body *it)
{
    struct nofs_at at;
    at.inode = (uint32_t)number(it, 4);
    at.generation = number(it, 8);
    if (at.inode == 0) it->bad = 1;
    return at;
}

static enum nofs_kind read_kind(struct body *it)
{
    uint64_t kind = number(it, 1);
    if (kind != NOFS_FILE && kind != NOFS_DIRECTORY) it->bad = 1;
    return kind == NOFS_DIRECTORY ? NOFS_DIRECTORY : NOFS_FILE;
}

static int whole(const struct body *it) { return it->bad || it->length ? NOFS_NONSENSE : NOFS_OK; }

int nofs_take_found(const struct nofs_reply *reply, struct nofs_found *found)
{
    struct body body = body_of(reply);
    if (reply->answer) return reply->answer;
    found->at = read_at(&body);
    found->kind = read_kind(&body);
    return whole(&body);
}

int nofs_take_made(const struct nofs_reply *reply, struct nofs_at *made)
{
    struct body body = body_of(reply);
    if (reply->answer) return reply->answer;
    *made = read_at(&body);
    return whole(&body);
}

static void read_line(struct body *it, struct nofs_name *line)
{
    line->kind = read_kind(it);
    line->dead = number(it, 1) != 0;
    size_t length = (size_t)number(it, 1);
    if (length < 1 || length > NOFS_NAME_BYTES) it->bad = 1;
    if (it->bad) return;
    memcpy(line->name, take(it, length), length);
    line->name[length] = 0;
    if (strlen(line->name) != length || memchr(line->name, '/', length)) it->bad = 1;
}

int nofs_take_names(const struct nofs_reply *reply, uint64_t slot, struct nofs_names *names)
{
    struct body body = body_of(reply);
    if (reply->answer) return reply->answer;
    uint64_t kind = number(&body, 1), count = 0;
    names->slot = 0;
    names->count = 0;
    names->end = kind == 3;
    names->lost = kind == 2;
    if (!names->end) names->slot = number(&body, 8);
    if (kind == 1) count = number(&body, 1);
    if (kind < 1 || kind > 3 || count > NOFS_SLOT_NAMES) return NOFS_NONSENSE;
    if (!names->end && (names->slot < slot || names->slot >= NOFS_DIRECTORY_SLOTS)) return NOFS_NONSENSE;
    for (; names->count < (int)count && !body.bad; names->count++) read_line(&body, &names->names[names->count]);
    return whole(&body);
}

int nofs_take_stat(const struct nofs_reply *reply, struct nofs_stat *stat)
{
    struct body body = body_of(reply);
    if (reply->answer) return reply->answer;
    stat->kind = read_kind(&body);
    stat->size = number(&body, 8);
    stat->links = (uint32_t)number(&body, 4);
    if (stat->size > (uint64_t)NOFS_FILE_SLOTS * NOFS_SLOT_BYTES) body.bad = 1;
    return whole(&body);
}

int nofs_take_value(const struct nofs_reply *reply, enum nofs_value *value, const uint8_t **bytes)
{
    static const uint8_t zeros[NOFS_SLOT_BYTES];
    struct body body = body_of(reply);
    if (reply->answer) return reply->answer;
    uint64_t kind = number(&body, 1);
    if (kind < NOFS_BYTES || kind > NOFS_LOST) return NOFS_NONSENSE;
    *value = (enum nofs_value)kind;
    *bytes = *value == NOFS_BYTES ? take(&body, NOFS_SLOT_BYTES) : zeros;
    return whole(&body);
}

/* One step: the batch of it alone */

static int claim_one(struct nofs *it) { return nofs_claim(it, NULL); }

int nofs_look(struct nofs *it, struct nofs_at directory, const char *name, struct nofs_found *found)
{
    nofs_begin(it);
    nofs_add_look(it, directory, name);
    int answer = claim_one(it);
    return answer ? answer : nofs_take_found(it->replies, found);
}

int nofs_make(struct nofs *it, struct nofs_at directory, const char *name, enum nofs_kind kind, struct nofs_at *made)
{
    nofs_begin(it);
    nofs_add_make(it, directory, name, kind);
    int answer = claim_one(it);
    return answer ? answer : nofs_take_made(it->replies, made);
}

int nofs_link(struct nofs *it, struct nofs_at directory, const char *name, struct nofs_at file)
{
    nofs_begin(it);
    nofs_add_link(it, directory, name, file);
    return claim_one(it);
}

int nofs_drop(struct nofs *it, struct nofs_at directory, const char *name)
{
    nofs_begin(it);
    nofs_add_drop(it, directory, name);
    return claim_one(it);
}

int nofs_rename(struct nofs *it, struct nofs_at directory, const char *name, const char *new_name)
{
    nofs_begin(it);
    nofs_add_rename(it, directory, name, new_name);
    return claim_one(it);
}

int nofs_list(struct nofs *it, struct nofs_at directory, uint64_t slot, struct nofs_names *names)
{
    nofs_begin(it);
    nofs_add_list(it, directory, slot);
    int answer = claim_one(it);
    return answer ? answer : nofs_take_names(it->replies, slot, names);
}

int nofs_stat(struct nofs *it, struct nofs_at at, struct nofs_stat *stat)
{
    nofs_begin(it);
    nofs_add_stat(it, at);
    int answer = claim_one(it);
    return answer ? answer : nofs_take_stat(it->replies, stat);
}

int nofs_get(struct nofs *it, struct nofs_at file, uint64_t slot, uint8_t bytes[NOFS_SLOT_BYTES],
             enum nofs_value *value)
{
    const uint8_t *from;
    nofs_begin(it);
    nofs_add_get(it, file, slot);
    int answer = claim_one(it);
    if (!answer) answer = nofs_take_value(it->replies, value, &from);
    if (!answer) memcpy(bytes, from, NOFS_SLOT_BYTES);
    return answer;
}

int nofs_put(struct nofs *it, struct nofs_at file, uint64_t slot, uint32_t place, const void *bytes, size_t length)
{
    nofs_begin(it);
    nofs_add_put(it, file, slot, place, bytes, length);
    return claim_one(it);
}

int nofs_resize(struct nofs *it, struct nofs_at file, uint64_t size)
{
    nofs_begin(it);
    nofs_add_resize(it, file, size);
    return claim_one(it);
}

int nofs_flush(struct nofs *it)
{
    nofs_begin(it);
    nofs_add_flush(it);
    int answer = claim_one(it);
    if (!answer) it->changed = 0;
    return answer;
}

int nofs_see_inode(struct nofs *it, uint32_t inode)
{
    nofs_begin(it);
    nofs_add_see_inode(it, inode);
    return claim_one(it);
}

int nofs_see_block(struct nofs *it, uint64_t block)
{
    nofs_begin(it);
    nofs_add_see_block(it, block);
    return claim_one(it);
}
