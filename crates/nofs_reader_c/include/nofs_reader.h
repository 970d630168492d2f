/* The reader of a NoFS image: what stands in the bytes of an image that nobody serves.
 *
 * An image is given as the bytes of its file and their number, as from mmap or fread, with zeros past the end: 1,056
 * bytes a block, or pages of three blocks, or twin pages, as its first bytes say (docs/FORMAT.md, "Pages"). Any bytes may
 * be given. Nothing of a page that can't be told is shown, and only the calls that need it say BAD_PAGE; the others
 * answer.
 * Nothing is written to the bytes, no memory is taken, and nothing is kept from one call to the next, so calls may run
 * side by side. Names are those of docs/DEFINITIONS.md.
 *
 * Each function returns 0 where it has an answer, and else why it has none. Then what `out` points to is unchanged.
 * What stands beside a function here is proved of it, on every image and all arguments: crates/nofs_reader_c/src/
 * exports.rt has the clauses. What C has to see to: a pointer is not NULL, leads to as many bytes as its length says,
 * or to one struct, and is aligned as its type asks (bytes anywhere, structs to 8); no length is above PTRDIFF_MAX; no
 * `into`, `marks` or `out` overlaps another argument; and nobody writes to the bytes of the image meanwhile. A program
 * that serves an image has an exclusive flock of its file: who maps the file holds a shared one, or copies the file.
 *
 *     ./nofs --reader          builds the archive libnofs_reader_c.a, and says where it stands
 *     cc -I crates/nofs_reader_c/include program.c crates/nofs_reader_c/out/libnofs_reader_c.a
 */
#ifndef NOFS_READER_H
#define NOFS_READER_H

#include <stddef.h>
#include <stdint.h>

#ifdef __cplusplus
extern "C" {
#endif

/* Why there is no answer. Beside each function stand those that it gives, and of several that hold it gives the one that
 * stands first there; BAD_PAGE comes where it meets such a page before it knows one of the others. The numbers are not
 * those of nofs_client.h, where 7 is NOFS_NOT_EMPTY. */
enum nofs_reader_code {
    NOFS_READER_OK = 0,
    /* The superblock has a fault: the first of docs/FORMAT.md, "Faults of a mount". */
    NOFS_READER_BAD_MAGIC = 1,
    NOFS_READER_BAD_VERSION = 2,
    NOFS_READER_BAD_REST = 3,
    NOFS_READER_BAD_GEOMETRY = 4,
    NOFS_READER_DEVICE_TOO_SMALL = 5,
    NOFS_READER_MOUNTS_SPENT = 6,
    /* No inode is agreed that has this number. */
    NOFS_READER_NO_INODE = 7,
    /* The inode is a file, or a directory, and the other one is asked for. */
    NOFS_READER_NOT_DIRECTORY = 8,
    NOFS_READER_IS_DIRECTORY = 9,
    /* No file has such a slot: it is 4,168 or more. */
    NOFS_READER_TOO_LARGE = 10,
    /* There are fewer than 1,024 bytes for a slot, or fewer marks than inodes. */
    NOFS_READER_NO_ROOM = 11,
    /* A page that the answer needs can't be told: it is torn, rotten or another's, and where it has two places so are
     * both. Of an image without pages no call says so. */
    NOFS_READER_BAD_PAGE = 15
};

/* The directory at the top of each image, and its label file. */
enum { NOFS_READER_ROOT = 1, NOFS_READER_LABEL = 2 };

/* The bytes of a slot; the places of a slot of a directory; the most inodes that an image has. */
enum { NOFS_READER_SLOT_BYTES = 1024, NOFS_READER_SLOT_PLACES = 16, NOFS_READER_MOST_INODES = 65536 };

/* What an inode is. */
enum nofs_reader_kind { NOFS_READER_FILE = 1, NOFS_READER_DIRECTORY = 2 };

/* The numbers of the superblock. */
struct nofs_reader_numbers {
    uint64_t version, blocks, inodes, mount;
};

/* How many inodes and blocks there are, and how many of them are used. */
struct nofs_reader_used {
    uint64_t inodes, used_inodes, blocks, used_blocks;
};

/* A file or directory: its kind, how many of its names lead to it, its generation, and its size in bytes. */
struct nofs_reader_inode {
    uint32_t kind, links;
    uint64_t generation, size;
};

/* So many slots of a file, one after the other: all have bytes, all are holes, or all are lost. */
enum nofs_reader_run_kind { NOFS_READER_BYTES = 1, NOFS_READER_HOLES = 2, NOFS_READER_LOST = 3 };
struct nofs_reader_run {
    uint64_t what, slots;
};

/* What stands at a place of a directory: nothing, an entry, a dead entry, or no one knows what, since its slot is lost.
 * `place` counts entries over all slots; of a lost slot it is the last one of its 16. An entry names `inode` of
 * `generation`, and has `length` bytes of a name, which does not end in a zero; `kind` is that of the inode, and 0 where
 * the entry is dead. */
enum nofs_reader_line_kind {
    NOFS_READER_NOTHING = 0,
    NOFS_READER_ENTRY = 1,
    NOFS_READER_DEAD = 2,
    NOFS_READER_LOST_SLOT = 3
};
struct nofs_reader_line {
    uint32_t what, place, inode, kind;
    uint64_t generation, length;
    uint8_t name[48];
};

/* The numbers of the superblock, or its first fault, or BAD_PAGE. */
uint32_t nofs_reader_superblock(const uint8_t *image, size_t length, struct nofs_reader_numbers *out);

/* What a scan counts: the inodes that are agreed, or are 1 or 2, and the blocks that have an owner, or lie before the
 * data area; or the superblock's first fault; or NO_ROOM where there are fewer marks than inodes; or BAD_PAGE. `marks` has a
 * byte for each inode of the image, so NOFS_READER_MOST_INODES are always enough. What it has before the call means
 * nothing, and it may have anything afterwards. It reads the whole image, and walks each directory twice, however deep
 * directories lie in one another: the time goes with the image's size. */
uint32_t nofs_reader_counts(const uint8_t *image, size_t length, uint8_t *marks, size_t room,
                            struct nofs_reader_used *out);

/* What an inode is: its kind, generation and size as its record has them, and the number of its back links that are
 * pairs with agreed directories; or the superblock's first fault; or NO_INODE, only where the inode is not agreed; or
 * BAD_PAGE. */
uint32_t nofs_reader_stat(const uint8_t *image, size_t length, uint32_t inode, struct nofs_reader_inode *out);

/* The values of slots of a file, from one on, whatever its size. `out->slots` is 1 or more, and each of these slots is
 * what `out->what` says; where that is BYTES, `into` has the 1,024 bytes of each, one slot after the other. Behind them,
 * and where it is not, `into` is as it was. No more slots are read than `into` has room for, and none from one on that
 * lies in a page that can't be told. Or NO_ROOM, TOO_LARGE, the superblock's first fault, NO_INODE, IS_DIRECTORY, or
 * BAD_PAGE where the first slot needs one; then `into` is unchanged. */
uint32_t nofs_reader_get(const uint8_t *image, size_t length, uint32_t inode, uint64_t slot, uint8_t *into,
                         size_t room, struct nofs_reader_run *out);

/* What stands in a directory at the first place, from `place` on, at which something does: an entry, dead exactly where
 * it is no pair with an agreed inode, or a lost slot; `out->what` is NOTHING where nothing stands up to the last place,
 * 1,151. To list a directory begin at place 0, and go on at `out->place + 1`. Or the superblock's first fault, NO_INODE,
 * NOT_DIRECTORY, or BAD_PAGE: where another place of the directory has an answer, go on at the place behind. */
uint32_t nofs_reader_next(const uint8_t *image, size_t length, uint32_t directory, uint32_t place,
                          struct nofs_reader_line *out);

/* What a name finds in a directory: the least entry of the name that is not dead (ENTRY); else the place of the least
 * dead one (DEAD, without the rest of the entry); else the last place of the least lost slot (LOST_SLOT); else NOTHING.
 * Or the superblock's first fault, NO_INODE, NOT_DIRECTORY, or BAD_PAGE where one may hold what the name finds. */
uint32_t nofs_reader_look(const uint8_t *image, size_t length, uint32_t directory, const uint8_t *name,
                          size_t name_length, struct nofs_reader_line *out);

#ifdef __cplusplus
}
#endif

#endif
