/* What the files of requests share. Each request is one function `do_..`, with the signature of libfuse's table. */
#ifndef REQUESTS_H
#define REQUESTS_H

#include "mount.h"

struct mount *mount_of(fuse_req_t request);
struct node *node_of(struct mount *it, fuse_ino_t number);
fuse_ino_t number_of(const struct mount *it, const struct node *node);

/* Answers with the error of a refusal, or with none. */
void reply_answer(fuse_req_t request, int answer);
/* The same of a request that changes nothing: where it met the end of a session it is served once more by the next. */
void reply_asked(fuse_req_t request, int answer);
/* Whether the request is on a node that is stale, and was answered with this error then. */
int is_refused_stale(fuse_req_t request, const struct node *node, int error);
void fill_stat(struct mount *it, const struct node *node, struct stat *stat);
/* An entry of a reply: the kernel has seen the node once more; or only its attributes. */
void fill_entry(struct mount *it, struct node *node, struct fuse_entry_param *entry);
void fill_unseen(struct mount *it, const struct node *node, struct fuse_entry_param *entry);

/* What a Look told of a name; `answer` is its refusal. */
struct sight { struct nofs_found found; int answer; };

int is_hidden(const struct mount *it, const struct node *folder, const char *name);
int is_too_long(const char *name);
/* The nodes of what was looked up, NULL where the look was refused; those that are new are asked for in one batch. */
int nodes_of(struct mount *it, struct sight *seen, struct node **nodes, size_t count);
/* A name that was looked up. */
int look(struct mount *it, const struct node *folder, const char *name, struct node **node);
/* Makes a file or directory; NULL where the request was answered with an error. */
struct node *make(fuse_req_t request, fuse_ino_t parent, const char *name, enum nofs_kind kind, mode_t mode);

int resize(struct mount *it, struct node *node, uint64_t size);
/* Nobody has the file open any more: what was removed goes. */
void close_node(struct mount *it, struct node *node);

void do_lookup(fuse_req_t request, fuse_ino_t parent, const char *name);
void do_forget(fuse_req_t request, fuse_ino_t number, uint64_t count);
void do_forget_multi(fuse_req_t request, size_t count, struct fuse_forget_data *forgets);
void do_mkdir(fuse_req_t request, fuse_ino_t parent, const char *name, mode_t mode);
void do_mknod(fuse_req_t request, fuse_ino_t parent, const char *name, mode_t mode, dev_t device);
void do_symlink(fuse_req_t request, const char *target, fuse_ino_t parent, const char *name);
void do_link(fuse_req_t request, fuse_ino_t number, fuse_ino_t parent, const char *name);
void do_unlink(fuse_req_t request, fuse_ino_t parent, const char *name);
void do_rmdir(fuse_req_t request, fuse_ino_t parent, const char *name);
void do_rename(fuse_req_t request, fuse_ino_t parent, const char *old, fuse_ino_t new_parent, const char *new,
               unsigned flags);
void do_open(fuse_req_t request, fuse_ino_t number, struct fuse_file_info *file);
void do_create(fuse_req_t request, fuse_ino_t parent, const char *name, mode_t mode, struct fuse_file_info *file);
void do_release(fuse_req_t request, fuse_ino_t number, struct fuse_file_info *file);
void do_read(fuse_req_t request, fuse_ino_t number, size_t size, off_t from, struct fuse_file_info *file);
void do_write(fuse_req_t request, fuse_ino_t number, const char *bytes, size_t size, off_t to,
              struct fuse_file_info *file);
void do_flush(fuse_req_t request, fuse_ino_t number, struct fuse_file_info *file);
void do_fsync(fuse_req_t request, fuse_ino_t number, int only_data, struct fuse_file_info *file);
void do_lseek(fuse_req_t request, fuse_ino_t number, off_t from, int whence, struct fuse_file_info *file);
void do_fallocate(fuse_req_t request, fuse_ino_t number, int mode, off_t from, off_t length,
                  struct fuse_file_info *file);
void do_opendir(fuse_req_t request, fuse_ino_t number, struct fuse_file_info *file);
void do_releasedir(fuse_req_t request, fuse_ino_t number, struct fuse_file_info *file);
void do_readdir(fuse_req_t request, fuse_ino_t number, size_t size, off_t place, struct fuse_file_info *file);
void do_readdirplus(fuse_req_t request, fuse_ino_t number, size_t size, off_t place, struct fuse_file_info *file);
void do_fsyncdir(fuse_req_t request, fuse_ino_t number, int only_data, struct fuse_file_info *file);

#endif
