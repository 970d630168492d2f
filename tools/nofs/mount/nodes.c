/* Nodes by inode, and the table of permissions, owners and times. */
#include "nodes.h"

#include <stdlib.h>
#include <string.h>
#include <sys/stat.h>

/* A first listing makes dozens of nodes, so they come from blocks, and go back to what is spare. For AddressSanitizer
 * each is memory of its own: it sees where one is used that went. */
#ifdef __SANITIZE_ADDRESS__
enum { NODES_AT_ONCE = 1 };
#else
enum { NODES_AT_ONCE = 64 };
#endif

struct block { struct block *next; struct node nodes[NODES_AT_ONCE]; };

static void add_block(struct nodes *it)
{
    struct block *made = malloc(sizeof *made);
    if (!made) return;
    made->next = it->blocks;
    it->blocks = made;
    for (size_t n = NODES_AT_ONCE; n > 0; n--) {
        made->nodes[n - 1].next = it->spare;
        it->spare = &made->nodes[n - 1];
    }
}

static struct node *new_node(struct nodes *it)
{
    if (NODES_AT_ONCE == 1) return calloc(1, sizeof(struct node));
    if (!it->spare) add_block(it);
    struct node *node = it->spare;
    if (!node) return NULL;
    it->spare = node->next;
    memset(node, 0, sizeof *node);
    return node;
}

static void free_node(struct nodes *it, struct node *node)
{
    if (NODES_AT_ONCE == 1) {
        free(node);
        return;
    }
    node->next = it->spare;
    it->spare = node;
}

int nodes_open(struct nodes *it, uint32_t inodes, uint32_t owner, uint32_t group)
{
    it->inodes = inodes;
    it->owner = owner;
    it->group = group;
    clock_gettime(CLOCK_REALTIME, &it->born);
    it->by_inode = calloc(inodes + 1, sizeof *it->by_inode);
    it->attributes = calloc(inodes + 1, sizeof *it->attributes);
    it->cut = calloc(inodes + 1, sizeof *it->cut);
    it->flush = 1;
    it->is_dirty = calloc(inodes + 1, 1);
    it->dirty = calloc(inodes + 1, sizeof *it->dirty);
    it->dirty_count = 0;
    return it->by_inode && it->cut && it->attributes && it->is_dirty && it->dirty;
}

void nodes_close(struct nodes *it)
{
    for (uint32_t n = 0; it->by_inode && n <= it->inodes; n++)
        while (it->by_inode[n]) {
            struct node *node = it->by_inode[n];
            it->by_inode[n] = node->next;
            free_node(it, node);
        }
    for (struct block *block = it->blocks, *next; block; block = next) {
        next = block->next;
        free(block);
    }
    free(it->by_inode);
    free(it->cut);
    free(it->attributes);
    free(it->is_dirty);
    free(it->dirty);
}

struct node *nodes_find(const struct nodes *it, struct nofs_at at)
{
    if (at.inode == 0 || at.inode > it->inodes) return NULL;
    struct node *node = it->by_inode[at.inode];
    while (node && node->at.generation != at.generation) node = node->next;
    return node;
}

struct node *nodes_add(struct nodes *it, struct nofs_at at, const struct nofs_stat *stat)
{
    struct node *node = nodes_find(it, at);
    if (node || at.inode == 0 || at.inode > it->inodes) return node;
    if (!(node = new_node(it))) return NULL;
    node->at = at;
    node->kind = stat->kind;
    node->size = stat->size;
    node->links = stat->links;
    node->is_cut = it->cut[at.inode] == at.generation;
    it->cut[at.inode] = 0;
    node->next = it->by_inode[at.inode];
    it->by_inode[at.inode] = node;
    return node;
}

static void take_out(struct nodes *it, struct node *node)
{
    struct node **from = &it->by_inode[node->stale ? 0 : node->at.inode];
    while (*from != node) from = &(*from)->next;
    *from = node->next;
}

void nodes_forget(struct nodes *it, struct node *node, uint64_t count)
{
    node->seen -= count < node->seen ? count : node->seen;
    if (node->seen || node->opened || node->at.inode == nofs_root.inode) return;
    take_out(it, node);
    free_node(it, node);
}

void nodes_make_stale(struct nodes *it, struct node *node)
{
    take_out(it, node);
    if (node->changed == it->flush || node->is_cut) it->cut[node->at.inode] = node->at.generation;
    node->stale = 1;
    node->hidden = 0;
    node->next = it->by_inode[0];
    it->by_inode[0] = node;
    nodes_forget(it, node, 0);
}

void nodes_note_change(struct nodes *it, struct node *node)
{
    node->changed = it->flush;
    if (node->size == 0) node->is_cut = 0;
}

/* Attributes */

static struct attributes new_attributes(const struct nodes *it, const struct node *node)
{
    uint32_t mode = node->kind == NOFS_DIRECTORY ? 0755 : 0644;
    return (struct attributes){node->at.generation, mode, it->owner, it->group, it->born, it->born, it->born};
}

/* The record of this generation, or NULL. */
static struct attributes *kept_attributes(struct nodes *it, const struct node *node)
{
    struct attributes_pair *pair = &it->attributes[node->at.inode];
    for (int n = 0; n < 2; n++)
        if (pair->of[n].generation == node->at.generation) {
            pair->last = n;
            return &pair->of[n];
        }
    return NULL;
}

/* What was taken since the last flush is of a file that is gone, and the other record may be of one that comes back. */
static struct attributes *take_attributes(struct nodes *it, const struct node *node)
{
    struct attributes_pair *pair = &it->attributes[node->at.inode];
    if (pair->taken != it->flush) pair->last = !pair->last;
    pair->taken = it->flush;
    pair->of[pair->last] = new_attributes(it, node);
    return &pair->of[pair->last];
}

const struct attributes *nodes_attributes(struct nodes *it, const struct node *node)
{
    const struct attributes *kept = node->gone ? NULL : kept_attributes(it, node);
    if (kept) return kept;
    it->defaults = new_attributes(it, node);
    return &it->defaults;
}

struct attributes *nodes_change(struct nodes *it, const struct node *node)
{
    uint32_t inode = node->at.inode;
    if (node->gone || node->stale) return NULL;
    struct attributes *kept = kept_attributes(it, node);
    if (!kept) kept = take_attributes(it, node);
    if (!it->is_dirty[inode]) it->dirty[it->dirty_count++] = inode;
    it->is_dirty[inode] = 1;
    return kept;
}

void nodes_touch_record(struct nodes *it, const struct node *node)
{
    struct attributes *kept = nodes_change(it, node);
    if (kept) clock_gettime(CLOCK_REALTIME, &kept->changed);
}

void nodes_touch(struct nodes *it, const struct node *node)
{
    struct attributes *kept = nodes_change(it, node);
    if (!kept) return;
    clock_gettime(CLOCK_REALTIME, &kept->modified);
    kept->changed = kept->modified;
}

void nodes_are_clean(struct nodes *it)
{
    while (it->dirty_count) it->is_dirty[it->dirty[--it->dirty_count]] = 0;
}
