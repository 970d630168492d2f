/* The kernel's session: one thread serves. It waits in a read of the kernel's device, and signals take it out of it:
 * that of the program's end, of a second that is over, and of who wants the mount to end. */
#define _GNU_SOURCE
#include "mount.h"

#include <errno.h>
#include <pthread.h>
#include <signal.h>
#include <stdio.h>
#include <stdlib.h>
#include <string.h>
#include <sys/mount.h>
#include <sys/time.h>
#include <sys/wait.h>
#include <unistd.h>

enum { INCREASE_EPOCH = 8 };            /* linux/fuse.h, version 7.44; not in libfuse 3.14 */

static volatile sig_atomic_t is_ending, child_changed, is_asked, second_is_over;

/* Signals */

static void on_signal(int number)
{
    if (number == SIGCHLD) child_changed = 1;
    else if (number == SIGUSR1) is_asked = 1;
    else if (number == SIGALRM) second_is_over = 1;
    else is_ending = 1;
}

/* Without SA_RESTART, so that they end the read. One that comes just before it waits for the next second. */
void kernel_take_signals(void)
{
    const int numbers[] = {SIGINT, SIGTERM, SIGHUP, SIGCHLD, SIGALRM, SIGUSR1};
    const struct itimerval every = {{1, 0}, {1, 0}};
    struct sigaction action;
    memset(&action, 0, sizeof action);
    action.sa_handler = on_signal;
    for (size_t n = 0; n < sizeof numbers / sizeof *numbers; n++) sigaction(numbers[n], &action, NULL);
    signal(SIGPIPE, SIG_IGN);
    setitimer(ITIMER_REAL, &every, NULL);
}

/* Telling the kernel that a session ended
 *
 * Of pages and listings by a thread of its own: the kernel waits there for locks that requests hold which wait for
 * us. */

static pthread_mutex_t of_tellers = PTHREAD_MUTEX_INITIALIZER;
static pthread_cond_t teller_ended = PTHREAD_COND_INITIALIZER;
static int tellers;

/* So many more of them. */
static void count_tellers(int more)
{
    pthread_mutex_lock(&of_tellers);
    tellers += more;
    pthread_cond_signal(&teller_ended);
    pthread_mutex_unlock(&of_tellers);
}

static void *tell_kernel(void *with)
{
    struct notice *notice = with;
    for (size_t n = 0; n < notice->count; n++)
        fuse_lowlevel_notify_inval_inode(notice->session, notice->numbers[n], 0, 0);
    free(notice);
    count_tellers(-1);
    return NULL;
}

/* Also for one that began before the last one: it uses the session. */
void kernel_wait_for_notices(void)
{
    pthread_mutex_lock(&of_tellers);
    while (tellers) pthread_cond_wait(&teller_ended, &of_tellers);
    pthread_mutex_unlock(&of_tellers);
}

/* Signals are the serving thread's. */
static void begin_teller(struct notice *notice)
{
    pthread_t teller;
    sigset_t all, old;
    if (!notice) return;
    count_tellers(1);
    sigfillset(&all);
    pthread_sigmask(SIG_SETMASK, &all, &old);
    int error = pthread_create(&teller, NULL, tell_kernel, notice);
    pthread_sigmask(SIG_SETMASK, &old, NULL);
    if (!error) {
        pthread_detach(teller);
        return;
    }
    free(notice);
    count_tellers(-1);
}

/* Entries that the kernel keeps lead to what was. It waits for nothing there, so nobody is answered before it knows. */
void kernel_forget_entries(void *mount)
{
    struct mount *it = mount;
    const uint32_t head[4] = {16, INCREASE_EPOCH, 0, 0};
    it->ends++;
    if (it->has_epochs && write(fuse_session_fd(it->session), head, sizeof head) < 0)
        tell("the kernel keeps its names: %s", strerror(errno));
}

/* Where it fails it is tried again with the next request, and each request until then is EIO. */
static void begin_again(struct mount *it)
{
    struct notice *notice = NULL;
    tell("the program ended (status %d); a new one begins from the image", it->nofs.status);
    if (recover(it, &notice)) it->nofs.ended = 1;
    else begin_teller(notice);
}

/* Serving */

/* Also where somebody stands in it: who has a file open keeps it until it is closed. */
static void unmount(const char *folder)
{
    if (getuid() == 0) umount2(folder, MNT_DETACH);
    else if (fork() == 0) {
        execlp("fusermount3", "fusermount3", "-u", "-z", "--", folder, (char *)0);
        _exit(127);
    }
}

static double now(void)
{
    struct timespec time;
    clock_gettime(CLOCK_MONOTONIC_COARSE, &time);
    return (double)time.tv_sec + 1e-9 * (double)time.tv_nsec;
}

static void flush_now_and_then(struct mount *it, double seconds, double *last)
{
    if (!it->nofs.changed && !(it->hidden.is_there && it->nodes.dirty_count)) return;
    if (now() - *last <= seconds) return;
    *last = now();
    int answer = mount_flush(it, 1);
    if (answer) tell("a flush failed (refusal %d)", answer);
}

static void answer_signals(struct mount *it, const char *folder)
{
    if (is_ending) {
        is_ending = 0;
        unmount(folder);
    }
    if (is_asked) {
        is_asked = 0;
        tell("requests %llu steps %llu batches %llu", (unsigned long long)it->requests,
             (unsigned long long)it->nofs.steps, (unsigned long long)it->nofs.batches);
    }
    if (second_is_over) {
        second_is_over = 0;
        processor_choose_anew();
    }
    if (child_changed) {
        child_changed = 0;
        nofs_watch(&it->nofs);
    }
}

static void serve_one(struct mount *it, struct fuse_buf *buffer)
{
    it->requests++;
    processor_share(it->nofs.child);
    it->may_ask_again = 1;
    it->is_unanswered = 0;
    fuse_session_process_buf(it->session, buffer);
    if (!it->is_unanswered) return;
    it->may_ask_again = 0;
    begin_again(it);
    fuse_session_process_buf(it->session, buffer);
}

void kernel_serve(struct mount *it, const char *folder, double flush_seconds)
{
    struct fuse_buf buffer;
    double last = now();
    memset(&buffer, 0, sizeof buffer);
    processor_begin();
    while (!fuse_session_exited(it->session)) {
        answer_signals(it, folder);
        if (it->nofs.ended) begin_again(it);
        flush_now_and_then(it, flush_seconds, &last);
        int got = fuse_session_receive_buf(it->session, &buffer);
        if (got > 0) serve_one(it, &buffer);
        else if (got != -EINTR && got != -EAGAIN) break;
    }
    free(buffer.mem);
}

/* Beginning */

/* The image's word as a value of a mount option, in which a comma would end it. */
static char *escaped(const char *word)
{
    char *made = malloc(2 * strlen(word) + 1), *to = made;
    if (!made) return NULL;
    for (; *word; word++) {
        if (*word == ',' || *word == '\\') *to++ = '\\';
        *to++ = *word;
    }
    *to = 0;
    return made;
}

int kernel_mount(struct mount *it, const char *image, const char *folder)
{
    const char *others = getuid() ? "" : ",allow_other";
    char *name = escaped(image), *options = NULL;
    struct fuse_args args = FUSE_ARGS_INIT(0, NULL);
    if (!name || asprintf(&options, "-ofsname=%s,subtype=nofs,default_permissions%s", name, others) < 0) return -1;
    fuse_opt_add_arg(&args, "nofs-mount");
    fuse_opt_add_arg(&args, options);
    free(name);
    free(options);
    it->session = fuse_session_new(&args, &requests, sizeof requests, it);
    fuse_opt_free_args(&args);
    return it->session ? fuse_session_mount(it->session, folder) : -1;
}
