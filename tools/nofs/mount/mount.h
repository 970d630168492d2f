/* A mounted image: the program's session, the nodes, the hidden folder, and the kernel's session. */
#ifndef MOUNT_H
#define MOUNT_H

#define FUSE_USE_VERSION 314
#include "nodes.h"

#include <fuse_lowlevel.h>

/* The folder `.nofs` of the root, which no listing shows. `is_there` is 0 where the image has no room for it, or the
 * name is another's: then attributes do not last, a replace is not finished after a crash, and the last name of an
 * open file stays. */
struct hidden {
    int is_there;
    struct nofs_at folder, attributes[2], replace;
    uint32_t last;              /* number of the last name given to a removed file */
    uint64_t replaces;
    struct nofs_at replaced[2]; /* the new files of the records that stand in the file `replace` */
};

struct lines { struct nofs_name *lines; size_t count, room; int has_no_memory; };

/* What directories listed that were counted together, from `first` on in `all`, while nothing has changed since. */
enum { TOLD_FOLDERS = 64 };
struct told_lines { struct nofs_at at; size_t first, count; };
struct told { struct lines all; struct told_lines of[TOLD_FOLDERS]; size_t folders; uint64_t names_changed, ends; };

struct listing;

struct mount {
    struct nofs nofs;
    struct nodes nodes;
    struct hidden hidden;
    struct node *root;
    uint64_t blocks, most;      /* of the image, and bytes of a file */
    uint64_t ends;              /* sessions that ended without a flush: who opened a directory before hears of it */
    struct fuse_session *session;
    double known;               /* seconds for which the kernel may keep what it was told */
    int has_epochs;             /* the kernel forgets all entries where it is told so */
    char *buffer;               /* of MOST_BYTES and a slot, for what is read of a file, or of a directory */
    /* the first bytes of a file that was opened just now, in `buffer` */
    struct { const struct node *node; size_t length; } ahead;
    uint64_t requests;          /* of the kernel; SIGUSR1 asks for them */
    uint32_t open_files;        /* as often as they are open */
    struct listing *listings;   /* the directories that are open */
    struct told told;
    int may_ask_again, is_unanswered; /* the request that is served now; it met the end of a session */
};

enum { MOST_BYTES = 1 << 20, MOST_WRITTEN = 1 << 16, MOST_LINKS = 4, STEPS_AT_ONCE = 512 };
#define HIDDEN_NAME ".nofs"

/* main.c */
void tell(const char *format, ...) __attribute__((format(printf, 1, 2)));

/* hidden.c: calls give the answer of the client. */
int hidden_open(struct mount *it);
/* What a session that ended left undone; no file is open any more. */
int hidden_recover(struct mount *it);
/* A further name for a file that is open, before its last one goes; and away with it. */
int hidden_keep(struct mount *it, struct node *node);
int hidden_drop(struct mount *it, struct node *node);
/* The same, where nobody hears of what is refused. */
void hidden_let_go(struct mount *it, struct node *node);
/* Drops all such names. */
void hidden_sweep(struct mount *it);
int is_same(struct nofs_at a, struct nofs_at b);

/* attributes.c */
uint64_t attributes_bytes(const struct mount *it);
int attributes_load(struct mount *it);
/* All that was accepted is durable, and the attributes where they are asked for. */
int mount_flush(struct mount *it, int with_attributes);

/* replace.c: `node` is to be `name` of `folder`, and was `old` of `from`. */
struct replace {
    uint64_t number;
    struct nofs_at folder, node, from;
    char name[NOFS_NAME_BYTES + 1], old[NOFS_NAME_BYTES + 1];
};
/* Stores the record of a replace that is about to be done; it is durable by the next flush. */
int replace_record(struct mount *it, struct replace replace);
/* A replace was refused: its record must not be finished, whatever becomes of the names. */
void replace_forget(struct mount *it);
/* Before a file that was put in another's place gets or loses a name of its own will: the record must not undo it. */
int replace_settle(struct mount *it, struct nofs_at node);
/* Finishes what the records say. */
int replace_finish_all(struct mount *it);

/* kernel.c */
void kernel_take_signals(void);
int kernel_mount(struct mount *it, const char *image, const char *folder);
/* Serves until the mount is ended; what changes waits so many seconds for its flush at most. */
void kernel_serve(struct mount *it, const char *folder, double flush_seconds);
/* For the client to call where a session ended. */
void kernel_forget_entries(void *mount);
void kernel_wait_for_notices(void);

/* processor.c: the server and its program on one processor, which is chosen with the first request of each second. */
void processor_begin(void);
void processor_choose_anew(void);
void processor_share(pid_t program);

/* folders.c: calls for each line of a directory that is not dead. */
typedef void of_line(struct mount *it, const struct nofs_name *line, void *with);
int each_line(struct mount *it, struct nofs_at folder, of_line *call, void *with);
/* The directories in a directory, which are its links. */
int count_folders(struct mount *it, struct node *node);
/* Of each that became known just now; NULL is none. */
int count_new_folders(struct mount *it, struct node *const *nodes, size_t count);
/* Lets go of the directories that are open, where the kernel will not. */
void listings_close(struct mount *it);

/* recover.c: after a session ended. NOFS_OK: the kernel is to be told of the nodes in `notice`. */
struct notice { struct fuse_session *session; size_t count; fuse_ino_t numbers[]; };
int recover(struct mount *it, struct notice **notice);

/* requests.c */
extern const struct fuse_lowlevel_ops requests;

#endif
