/* What the kernel holds of an image. A node stands for a file or directory by its inode and generation. It has no
 * contents and no names; size and links are those that the last step on it left.
 *
 * A node is fresh until the program's session ends without a flush. Then a file's node is stale: who has the file
 * open hears of it by EIO, and who looks its name up again gets a new node. A directory's node goes on where the
 * directory is still there. */
#ifndef NODES_H
#define NODES_H

#include "nofs_client.h"

#include <time.h>

struct node {
    struct node *next;          /* in the same list: of one inode, or of the stale ones */
    struct nofs_at at;
    enum nofs_kind kind;
    uint64_t size;
    uint32_t links;             /* names of a file */
    uint32_t folders;           /* directories in a directory, where they were counted */
    int is_counted;
    uint64_t seen;              /* lookups of the kernel that it did not forget */
    uint32_t opened;
    uint32_t hidden;            /* its number in the hidden folder, 0 where it has none */
    uint64_t changed;           /* the flush that makes its last change durable */
    int is_cut;                 /* what was written to it was lost with a session, and nobody was told of it */
    int stale, gone;            /* gone: its last name went, and the inode may be another's by now */
    int is_looked_at, is_lossy; /* opened before, so no lost slot is looked for; one was found */
};

/* What the format does not keep. */
struct attributes { uint64_t generation; uint32_t mode, owner, group; struct timespec accessed, modified, changed; };

/* Of an inode. A new file does not take the record of the one before, whose removal a crash may take back until the next
 * flush: it takes the other one. They stand in two files of the hidden folder, by the number of the inode. */
struct attributes_pair { struct attributes of[2]; int last; uint64_t taken; };

struct block;

struct nodes {
    uint32_t inodes, owner, group;
    struct timespec born;       /* the times of what has no record */
    struct block *blocks;       /* memory of nodes, and those in it that are none */
    struct node *spare;
    struct node **by_inode;     /* the list of number 0 has the stale ones */
    uint64_t *cut;              /* generation of a file that lost what was written to it, by inode */
    uint64_t flush;             /* number of the next one */
    struct attributes_pair *attributes;
    struct attributes defaults; /* of what has no record, as they were looked at last */
    uint8_t *is_dirty;
    uint32_t *dirty, dirty_count; /* inodes whose attributes are not durable */
};

/* 0 where there is no memory. */
int nodes_open(struct nodes *it, uint32_t inodes, uint32_t owner, uint32_t group);
void nodes_close(struct nodes *it);
/* NULL where there is none. */
struct node *nodes_find(const struct nodes *it, struct nofs_at at);
/* The node of this inode, a new one where there is none; NULL where the image has no such inode, or there is no
 * memory. */
struct node *nodes_add(struct nodes *it, struct nofs_at at, const struct nofs_stat *stat);
/* Takes lookups away, and the node where none is left and nobody has it open. */
void nodes_forget(struct nodes *it, struct node *node, uint64_t count);
/* Away too where nobody knows it. */
void nodes_make_stale(struct nodes *it, struct node *node);

/* Its bytes have changed; until the next flush a session that ends takes the change with it. */
void nodes_note_change(struct nodes *it, struct node *node);

/* To look at until the next call; of a node that is gone they are those of a new file. */
const struct attributes *nodes_attributes(struct nodes *it, const struct node *node);
/* To change: they are written with the next flush. NULL of a node that is gone or stale. */
struct attributes *nodes_change(struct nodes *it, const struct node *node);
/* Its bytes have changed, or its names; its record alone. */
void nodes_touch(struct nodes *it, const struct node *node);
void nodes_touch_record(struct nodes *it, const struct node *node);
void nodes_are_clean(struct nodes *it);

#endif
