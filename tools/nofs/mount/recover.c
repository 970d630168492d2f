/* After the program's session ended without a flush: what the kernel holds is set right.
 *
 * Promise: who has a file open hears of it, and nobody else sees what was lost. A replace that was under way is
 * finished. */
#include "mount.h"

#include <stdlib.h>

static fuse_ino_t number_of(const struct mount *it, const struct node *node)
{
    return node == it->root ? FUSE_ROOT_ID : (fuse_ino_t)(uintptr_t)node;
}

/* The nodes that the kernel may have pages or listings of. */
static struct notice *notice_of(const struct mount *it)
{
    size_t count = 0;
    for (uint32_t n = 0; n <= it->nodes.inodes; n++)
        for (struct node *node = it->nodes.by_inode[n]; node; node = node->next) count++;
    struct notice *made = malloc(sizeof *made + count * sizeof *made->numbers);
    if (!made) return NULL;
    made->session = it->session;
    made->count = 0;
    for (uint32_t n = 0; n <= it->nodes.inodes; n++)
        for (struct node *node = it->nodes.by_inode[n]; node; node = node->next)
            made->numbers[made->count++] = number_of(it, node);
    return made;
}

/* A file's node stays behind with those who have it open; what its name leads to now is another's business. */
static void leave_files(struct mount *it)
{
    for (uint32_t n = 1; n <= it->nodes.inodes; n++)
        for (struct node *node = it->nodes.by_inode[n], *next; node; node = next) {
            next = node->next;
            if (node->kind == NOFS_FILE) nodes_make_stale(&it->nodes, node);
        }
}

static void ask_for_folders(struct mount *it)
{
    nofs_begin(&it->nofs);
    for (uint32_t n = 1; n <= it->nodes.inodes; n++)
        for (struct node *node = it->nodes.by_inode[n]; node; node = node->next) nofs_add_stat(&it->nofs, node->at);
}

/* A drop of a directory may have been taken back. */
static void take_folders(struct mount *it)
{
    size_t place = 0;
    for (uint32_t n = 1; n <= it->nodes.inodes; n++)
        for (struct node *node = it->nodes.by_inode[n], *next; node; node = next) {
            struct nofs_stat stat;
            next = node->next;
            node->gone = nofs_take_stat(&it->nofs.replies[place++], &stat) != NOFS_OK;
            if (node->gone && node != it->root) nodes_make_stale(&it->nodes, node);
        }
}

static int count_all_folders(struct mount *it)
{
    int answer = NOFS_OK;
    for (uint32_t n = 1; n <= it->nodes.inodes && !answer; n++)
        for (struct node *node = it->nodes.by_inode[n]; node && !answer; node = node->next)
            answer = count_folders(it, node);
    return answer;
}

int recover(struct mount *it, struct notice **notice)
{
    leave_files(it);
    int answer = nofs_again(&it->nofs);
    if (!answer) answer = hidden_recover(it);
    if (answer) return answer;
    ask_for_folders(it);
    answer = nofs_send(&it->nofs);
    if (!answer) take_folders(it);
    if (!answer) answer = count_all_folders(it);
    if (!answer) *notice = notice_of(it);
    return answer;
}
