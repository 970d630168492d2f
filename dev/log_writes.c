/* Loaded before the program `nofs`, it appends each write and flush of an image to the file $LOG_WRITES:
 *
 *     cc -shared -fPIC -o log_writes.so log_writes.c -ldl; LD_PRELOAD=./log_writes.so LOG_WRITES=log nofs ..
 *
 * A record is three u64 (1 a write, 2 a flush; place; length) and the bytes. Other programs are left alone. */
#define _GNU_SOURCE
#include <dlfcn.h>
#include <errno.h>
#include <fcntl.h>
#include <pthread.h>
#include <stdint.h>
#include <stdlib.h>
#include <string.h>
#include <sys/uio.h>
#include <unistd.h>

enum kind { WRITE = 1, FLUSH = 2 };

static int log_file = -2;
static pthread_mutex_t lock = PTHREAD_MUTEX_INITIALIZER;

static int is_program(void)
{
    const char *name = program_invocation_short_name;
    return !strncmp(name, "nofs", 4) && !strstr(name, "mount");
}

static void log_call(enum kind kind, uint64_t place, const void *bytes, uint64_t length)
{
    const char *path = getenv("LOG_WRITES");
    if (log_file == -2) log_file = path && is_program() ? open(path, O_WRONLY | O_CREAT | O_APPEND, 0600) : -1;
    if (log_file < 0) return;
    uint64_t head[3] = {kind, place, length};
    struct iovec parts[2] = {{head, sizeof head}, {(void *)bytes, length}};
    if (writev(log_file, parts, 2) < 0) abort();
}

ssize_t pwrite64(int file, const void *bytes, size_t length, off64_t place)
{
    static ssize_t (*call)(int, const void *, size_t, off64_t);
    if (!call) call = (ssize_t (*)(int, const void *, size_t, off64_t))dlsym(RTLD_NEXT, "pwrite64");
    pthread_mutex_lock(&lock);
    ssize_t done = call(file, bytes, length, place);
    int error = errno;
    if (done > 0) log_call(WRITE, (uint64_t)place, bytes, (uint64_t)done);
    pthread_mutex_unlock(&lock);
    errno = error;
    return done;
}

ssize_t pwrite(int file, const void *bytes, size_t length, off_t place) { return pwrite64(file, bytes, length, place); }

static int flush(int file, const char *name)
{
    int (*call)(int) = (int (*)(int))dlsym(RTLD_NEXT, name);
    pthread_mutex_lock(&lock);
    int answer = call(file);
    if (!answer) log_call(FLUSH, 0, "", 0);
    pthread_mutex_unlock(&lock);
    return answer;
}

int fdatasync(int file) { return flush(file, "fdatasync"); }
int fsync(int file) { return flush(file, "fsync"); }
