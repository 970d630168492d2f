/* The kernel's requests: what they share, those on attributes and on the whole image, and the table. */
#define _GNU_SOURCE
#include "requests.h"

#include <errno.h>
#include <string.h>
#include <sys/stat.h>

struct mount *mount_of(fuse_req_t request) { return fuse_req_userdata(request); }

struct node *node_of(struct mount *it, fuse_ino_t number)
{
    return number == FUSE_ROOT_ID ? it->root : (struct node *)(uintptr_t)number;
}

fuse_ino_t number_of(const struct mount *it, const struct node *node)
{
    return node == it->root ? FUSE_ROOT_ID : (fuse_ino_t)(uintptr_t)node;
}

/* Errors (docs/FORMAT.md, "As a directory") */

/* A session that can't go on ends here. Of one that was stopped the end fails, and what follows is as after a death. */
static void renew_session(struct mount *it, int answer)
{
    tell(answer == NOFS_STOPPED ? "the session stopped after a write fault; a new one begins"
                                : "the serials of this session are spent; a new one begins");
    nofs_renew(&it->nofs);
}

static int error_of(int answer)
{
    static const int errors[] = {
        0, ENOENT, EIO, EIO, EEXIST, ENOTDIR, EISDIR, ENOTEMPTY, EINVAL, EINVAL, EMLINK, ENOSPC, EFBIG, EINVAL, ESTALE,
        ENOSPC, ENOSPC, EROFS, EIO, EIO, EIO,
    };
    return answer == NOFS_NO_MEMORY ? ENOMEM : answer < 0 || answer > NOFS_STOPPED ? EIO : errors[answer];
}

void reply_answer(fuse_req_t request, int answer)
{
    if (answer == NOFS_STOPPED || answer == NOFS_SERIALS_SPENT) renew_session(mount_of(request), answer);
    fuse_reply_err(request, error_of(answer));
}

/* Without an answer the request is the kernel's still. */
void reply_asked(fuse_req_t request, int answer)
{
    struct mount *it = mount_of(request);
    it->is_unanswered = answer == NOFS_ENDED && it->may_ask_again;
    if (it->is_unanswered) fuse_reply_none(request);
    else reply_answer(request, answer);
}

int is_refused_stale(fuse_req_t request, const struct node *node, int error)
{
    if (node->stale) fuse_reply_err(request, error);
    return node->stale;
}

/* Attributes */

static nlink_t links_of(const struct node *node)
{
    if (node->hidden || node->gone) return 0;
    return node->kind == NOFS_DIRECTORY ? 2 + node->folders : node->links;
}

void fill_stat(struct mount *it, const struct node *node, struct stat *stat)
{
    const struct attributes *kept = nodes_attributes(&it->nodes, node);
    memset(stat, 0, sizeof *stat);
    stat->st_ino = node->at.inode;
    stat->st_mode = (node->kind == NOFS_DIRECTORY ? S_IFDIR : S_IFREG) | kept->mode;
    stat->st_nlink = links_of(node);
    stat->st_uid = kept->owner;
    stat->st_gid = kept->group;
    stat->st_size = (off_t)node->size;
    stat->st_blocks = (blkcnt_t)((node->size + 511) / 512);
    stat->st_blksize = 4096;
    stat->st_atim = kept->accessed;
    stat->st_mtim = kept->modified;
    stat->st_ctim = kept->changed;
}

void fill_unseen(struct mount *it, const struct node *node, struct fuse_entry_param *entry)
{
    entry->ino = 0;
    entry->generation = 0;
    entry->attr_timeout = entry->entry_timeout = 0;
    fill_stat(it, node, &entry->attr);
}

void fill_entry(struct mount *it, struct node *node, struct fuse_entry_param *entry)
{
    entry->ino = number_of(it, node);
    entry->generation = node->at.generation;
    entry->attr_timeout = entry->entry_timeout = it->known;
    fill_stat(it, node, &entry->attr);
    node->seen++;
}

static void reply_attributes(fuse_req_t request, const struct node *node)
{
    struct mount *it = mount_of(request);
    struct stat stat;
    fill_stat(it, node, &stat);
    fuse_reply_attr(request, &stat, it->known);
}

/* At ESTALE the kernel looks a name up again; who has the file open hears EIO. */
void do_getattr(fuse_req_t request, fuse_ino_t number, struct fuse_file_info *file)
{
    struct node *node = node_of(mount_of(request), number);
    if (!is_refused_stale(request, node, file ? EIO : ESTALE)) reply_attributes(request, node);
}

static void set_attributes(struct mount *it, struct node *node, const struct stat *given, int which)
{
    struct attributes *kept = nodes_change(&it->nodes, node);
    struct timespec now;
    if (!kept) return;
    clock_gettime(CLOCK_REALTIME, &now);
    if (which & FUSE_SET_ATTR_MODE) kept->mode = given->st_mode & 07777;
    if (which & FUSE_SET_ATTR_UID) kept->owner = given->st_uid;
    if (which & FUSE_SET_ATTR_GID) kept->group = given->st_gid;
    if (which & FUSE_SET_ATTR_ATIME) kept->accessed = which & FUSE_SET_ATTR_ATIME_NOW ? now : given->st_atim;
    if (which & FUSE_SET_ATTR_MTIME) kept->modified = which & FUSE_SET_ATTR_MTIME_NOW ? now : given->st_mtim;
    kept->changed = which & FUSE_SET_ATTR_CTIME ? given->st_ctim : now;
}

void do_setattr(fuse_req_t request, fuse_ino_t number, struct stat *given, int which, struct fuse_file_info *file)
{
    struct mount *it = mount_of(request);
    struct node *node = node_of(it, number);
    if (is_refused_stale(request, node, file ? EIO : ESTALE)) return;
    int answer = which & FUSE_SET_ATTR_SIZE ? resize(it, node, (uint64_t)given->st_size) : NOFS_OK;
    if (answer) {
        reply_answer(request, answer);
        return;
    }
    set_attributes(it, node, given, which);
    reply_attributes(request, node);
}

/* Nodes of names */

int is_hidden(const struct mount *it, const struct node *folder, const char *name)
{
    return folder == it->root && it->hidden.is_there && !strcmp(name, HIDDEN_NAME);
}

int is_too_long(const char *name) { return strlen(name) > NOFS_NAME_BYTES; }

static void take_node(struct mount *it, struct sight *seen, struct node **node, const struct nofs_reply *reply)
{
    struct nofs_stat stat;
    seen->answer = nofs_take_stat(reply, &stat);
    if (!seen->answer && stat.kind != seen->found.kind) seen->answer = NOFS_NONSENSE;
    if (seen->answer) return;
    *node = nodes_add(&it->nodes, seen->found.at, &stat);
    if (!*node) seen->answer = NOFS_NONSENSE;
}

int nodes_of(struct mount *it, struct sight *seen, struct node **nodes, size_t count)
{
    nofs_begin(&it->nofs);
    for (size_t n = 0; n < count; n++) {
        nodes[n] = seen[n].answer ? NULL : nodes_find(&it->nodes, seen[n].found.at);
        if (!nodes[n] && !seen[n].answer) nofs_add_stat(&it->nofs, seen[n].found.at);
    }
    int answer = nofs_send(&it->nofs);
    for (size_t n = 0, place = 0; !answer && n < count; n++)
        if (!nodes[n] && !seen[n].answer) take_node(it, &seen[n], &nodes[n], &it->nofs.replies[place++]);
    return answer ? answer : count_new_folders(it, nodes, count);
}

int look(struct mount *it, const struct node *folder, const char *name, struct node **node)
{
    struct sight seen;
    *node = NULL;
    if (is_hidden(it, folder, name)) return NOFS_MISSING;
    seen.answer = nofs_look(&it->nofs, folder->at, name, &seen.found);
    int answer = seen.answer ? seen.answer : nodes_of(it, &seen, node, 1);
    return answer ? answer : seen.answer;
}

/* The image */

/* The totals of the superblock. No step tells how much is free, so all is said to be. */
static void do_statfs(fuse_req_t request, fuse_ino_t number)
{
    struct mount *it = mount_of(request);
    struct statvfs stat;
    (void)number;
    memset(&stat, 0, sizeof stat);
    stat.f_bsize = stat.f_frsize = NOFS_SLOT_BYTES;
    stat.f_blocks = it->blocks;
    stat.f_bfree = stat.f_bavail = it->blocks - 1 - it->nodes.inodes / 4;
    stat.f_files = it->nodes.inodes;
    stat.f_ffree = it->nodes.inodes - 2;
    stat.f_namemax = NOFS_NAME_BYTES;
    fuse_reply_statfs(request, &stat);
}

/* No writeback cache: a write would be accepted that the image has no room for, and what is stored short is told to
 * nobody. Of a megabyte that is written at once each copy would go by way of the slower caches. By less than 64 KiB a
 * request takes less of the processor, but each wakes the task that writes once more: by 20 KiB 4 MB take an eighth more. */
static void do_init(void *with, struct fuse_conn_info *connection)
{
    const unsigned wanted = FUSE_CAP_READDIRPLUS | FUSE_CAP_READDIRPLUS_AUTO | FUSE_CAP_ATOMIC_O_TRUNC |
                            FUSE_CAP_ASYNC_READ | FUSE_CAP_PARALLEL_DIROPS;
    const unsigned unwanted = FUSE_CAP_AUTO_INVAL_DATA | FUSE_CAP_SPLICE_READ | FUSE_CAP_SPLICE_WRITE |
                              FUSE_CAP_SPLICE_MOVE | FUSE_CAP_IOCTL_DIR;
    struct mount *it = with;
    connection->max_write = MOST_WRITTEN;
    connection->want |= connection->capable & wanted;
    connection->want &= ~unwanted;
    it->has_epochs = connection->proto_major == 7 && connection->proto_minor >= 44;
    it->known = it->has_epochs ? 3600 : 1;
}

const struct fuse_lowlevel_ops requests = {
    .init = do_init, .lookup = do_lookup, .forget = do_forget, .forget_multi = do_forget_multi, .getattr = do_getattr,
    .setattr = do_setattr, .mknod = do_mknod, .mkdir = do_mkdir, .symlink = do_symlink, .unlink = do_unlink,
    .rmdir = do_rmdir,
    .rename = do_rename, .link = do_link, .open = do_open, .create = do_create, .read = do_read, .write = do_write,
    .flush = do_flush, .release = do_release, .fsync = do_fsync, .lseek = do_lseek, .fallocate = do_fallocate,
    .opendir = do_opendir, .readdir = do_readdir, .readdirplus = do_readdirplus, .releasedir = do_releasedir,
    .fsyncdir = do_fsyncdir, .statfs = do_statfs,
};
