/* The processor on which the server and its program run.
 *
 * Of the two one alone has work at a time: a batch goes out, and the server waits for its replies. On two processors
 * each such turn wakes one that sleeps, which costs more than what is done in it. So both are kept on one, and the
 * kernel chooses anew each second, of those that the mount was allowed when it began. What fails here is no matter. */
#define _GNU_SOURCE
#include "mount.h"

#include <dirent.h>
#include <sched.h>
#include <stdio.h>
#include <stdlib.h>

static cpu_set_t allowed;
static cpu_set_t chosen;
static int has_choice, is_chosen;
static pid_t chosen_for;

void processor_begin(void)
{
    has_choice = !sched_getaffinity(0, sizeof allowed, &allowed) && CPU_COUNT(&allowed) > 1;
}

/* Where the next request wakes the server, the kernel chooses. */
void processor_choose_anew(void)
{
    if (has_choice && is_chosen) sched_setaffinity(0, sizeof allowed, &allowed);
    is_chosen = 0;
}

/* Each thread of a process. */
static void keep_on(pid_t process, const cpu_set_t *one)
{
    char path[40];
    snprintf(path, sizeof path, "/proc/%d/task", (int)process);
    DIR *tasks = opendir(path);
    if (!tasks) return;
    for (const struct dirent *task; (task = readdir(tasks)); ) {
        pid_t number = (pid_t)strtol(task->d_name, NULL, 10);
        if (number > 0) sched_setaffinity(number, sizeof *one, one);
    }
    closedir(tasks);
}

static void choose(pid_t program)
{
    int here = sched_getcpu();
    if (here < 0 || here >= CPU_SETSIZE) return;
    CPU_ZERO(&chosen);
    CPU_SET(here, &chosen);
    is_chosen = 1;
    chosen_for = program;
    if (program > 0) keep_on(program, &chosen);
    sched_setaffinity(0, sizeof chosen, &chosen);
}

void processor_share(pid_t program)
{
    if (has_choice && (!is_chosen || chosen_for != program)) choose(program);
}
