/* Names: what is looked up, made, linked, removed and renamed.
 *
 * Promise: a request that is refused has changed nothing, but for a rename into another directory, which is several
 * steps and may leave both names. */
#define _GNU_SOURCE
#include "requests.h"

#include <errno.h>
#include <stdio.h>
#include <string.h>
#include <sys/stat.h>

static void reply_entry(fuse_req_t request, struct node *node)
{
    struct mount *it = mount_of(request);
    struct fuse_entry_param entry;
    fill_entry(it, node, &entry);
    if (fuse_reply_entry(request, &entry)) nodes_forget(&it->nodes, node, 1);
}

/* An entry without a node: the kernel keeps that the name is not there. */
static void reply_no_entry(fuse_req_t request)
{
    struct fuse_entry_param none;
    memset(&none, 0, sizeof none);
    none.entry_timeout = mount_of(request)->known;
    fuse_reply_entry(request, &none);
}

/* A name that can't be there is not there: only who would make it hears why. */
void do_lookup(fuse_req_t request, fuse_ino_t parent, const char *name)
{
    struct mount *it = mount_of(request);
    struct node *folder = node_of(it, parent), *node;
    if (is_refused_stale(request, folder, ESTALE)) return;
    if (is_too_long(name)) {
        fuse_reply_err(request, ENAMETOOLONG);
        return;
    }
    int answer = look(it, folder, name, &node);
    if (!answer) reply_entry(request, node);
    else if (answer == NOFS_MISSING || answer == NOFS_BAD_NAME) reply_no_entry(request);
    else reply_asked(request, answer);
}

/* A removed file goes where nobody has it open and no open of it can be under way. */
static void forget(struct mount *it, struct node *node, uint64_t count)
{
    if (node->hidden && !node->opened && node->seen <= count) hidden_let_go(it, node);
    nodes_forget(&it->nodes, node, count);
}

void do_forget(fuse_req_t request, fuse_ino_t number, uint64_t count)
{
    struct mount *it = mount_of(request);
    forget(it, node_of(it, number), count);
    fuse_reply_none(request);
}

void do_forget_multi(fuse_req_t request, size_t count, struct fuse_forget_data *forgets)
{
    struct mount *it = mount_of(request);
    for (size_t n = 0; n < count; n++) forget(it, node_of(it, forgets[n].ino), forgets[n].nlookup);
    fuse_reply_none(request);
}

/* Making */

/* In a directory with the setgid bit what is made has its group, and directories the bit. */
static void set_first_attributes(fuse_req_t request, const struct node *folder, const struct node *node, mode_t mode)
{
    struct mount *it = mount_of(request);
    struct attributes *kept = nodes_change(&it->nodes, node), parent = *nodes_attributes(&it->nodes, folder);
    if (!kept) return;
    kept->mode = mode & 07777;
    kept->owner = fuse_req_ctx(request)->uid;
    kept->group = fuse_req_ctx(request)->gid;
    if (parent.mode & S_ISGID) {
        kept->group = parent.group;
        if (node->kind == NOFS_DIRECTORY) kept->mode |= S_ISGID;
    }
    nodes_touch(&it->nodes, node);
    kept->accessed = kept->modified;
}

static struct node *made_node(fuse_req_t request, struct node *folder, struct nofs_at at, enum nofs_kind kind,
                              mode_t mode)
{
    struct mount *it = mount_of(request);
    const struct nofs_stat stat = {kind, 0, 1};
    struct node *node = nodes_add(&it->nodes, at, &stat);
    if (!node) return NULL;
    node->is_looked_at = node->is_counted = 1;
    nodes_note_change(&it->nodes, node);
    set_first_attributes(request, folder, node, mode);
    nodes_touch(&it->nodes, folder);
    if (kind == NOFS_DIRECTORY) folder->folders++;
    return node;
}

struct node *make(fuse_req_t request, fuse_ino_t parent, const char *name, enum nofs_kind kind, mode_t mode)
{
    struct mount *it = mount_of(request);
    struct node *folder = node_of(it, parent), *node = NULL;
    struct nofs_at at;
    if (is_refused_stale(request, folder, ESTALE)) return NULL;
    if (is_hidden(it, folder, name) || is_too_long(name)) {
        fuse_reply_err(request, is_too_long(name) ? ENAMETOOLONG : EPERM);
        return NULL;
    }
    int answer = nofs_make(&it->nofs, folder->at, name, kind, &at);
    if (!answer && !(node = made_node(request, folder, at, kind, mode))) answer = NOFS_NONSENSE;
    if (answer) reply_answer(request, answer);
    return node;
}

void do_mkdir(fuse_req_t request, fuse_ino_t parent, const char *name, mode_t mode)
{
    struct node *node = make(request, parent, name, NOFS_DIRECTORY, mode);
    if (node) reply_entry(request, node);
}

void do_mknod(fuse_req_t request, fuse_ino_t parent, const char *name, mode_t mode, dev_t device)
{
    (void)device;
    if (!S_ISREG(mode)) {
        fuse_reply_err(request, EPERM);
        return;
    }
    struct node *node = make(request, parent, name, NOFS_FILE, mode);
    if (node) reply_entry(request, node);
}

void do_symlink(fuse_req_t request, const char *target, fuse_ino_t parent, const char *name)
{
    (void)target, (void)parent, (void)name;
    fuse_reply_err(request, EPERM);
}

static int link_error(const struct mount *it, const struct node *node, const struct node *folder, const char *name)
{
    if (node->stale || folder->stale) return ESTALE;
    if (is_too_long(name)) return ENAMETOOLONG;
    if (node->hidden || node->gone) return ENOENT;
    return is_hidden(it, folder, name) ? EPERM : 0;
}

void do_link(fuse_req_t request, fuse_ino_t number, fuse_ino_t parent, const char *name)
{
    struct mount *it = mount_of(request);
    struct node *node = node_of(it, number), *folder = node_of(it, parent);
    int error = link_error(it, node, folder, name);
    if (error) {
        fuse_reply_err(request, error);
        return;
    }
    int answer = replace_settle(it, node->at);
    if (!answer) answer = nofs_link(&it->nofs, folder->at, name, node->at);
    if (answer) {
        reply_answer(request, answer);
        return;
    }
    node->links++;
    nodes_touch_record(&it->nodes, node);
    nodes_touch(&it->nodes, folder);
    reply_entry(request, node);
}

/* Removing */

/* Before the last name of a file that is in use goes, it gets one that is not shown. */
static int keep(struct mount *it, struct node *node, int is_used)
{
    int is_last = node->kind == NOFS_FILE && node->links == 1 && !node->hidden;
    return is_last && is_used ? hidden_keep(it, node) : NOFS_OK;
}

/* A name of it was dropped. */
static void lost_name(struct mount *it, struct node *folder, struct node *node)
{
    if (node->links) node->links--;
    if (node->kind == NOFS_DIRECTORY && folder->folders) folder->folders--;
    if (!node->hidden && (node->kind == NOFS_DIRECTORY || !node->links)) node->gone = 1;
    nodes_touch_record(&it->nodes, node);
}

/* A name that was not dropped is the last one still. */
static void unhide(struct mount *it, struct node *node)
{
    if (!node || !node->hidden || !node->links) return;
    hidden_drop(it, node);
    node->gone = 0;
}

/* Where no file is open none has to be kept, and a name is looked up and dropped in one batch: it is of the kind that
 * the kernel saw, unless a session ended since. */
static int drop_at_once(struct mount *it, const struct node *folder, const char *name, struct node **node)
{
    struct nofs_found found;
    *node = NULL;
    if (is_hidden(it, folder, name)) return NOFS_MISSING;
    nofs_begin(&it->nofs);
    nofs_add_look(&it->nofs, folder->at, name);
    nofs_add_drop(&it->nofs, folder->at, name);
    int answer = nofs_claim(&it->nofs, NULL);
    if (!answer) answer = nofs_take_found(&it->nofs.replies[0], &found);
    if (!answer) *node = nodes_find(&it->nodes, found.at);
    return answer;
}

static int look_and_drop(struct mount *it, const struct node *folder, const char *name, enum nofs_kind kind,
                         struct node **node)
{
    int answer = look(it, folder, name, node);
    if (!answer && (*node)->kind != kind) answer = kind == NOFS_FILE ? NOFS_IS_A_DIRECTORY : NOFS_NOT_A_DIRECTORY;
    if (!answer) answer = keep(it, *node, (*node)->opened != 0);
    if (!answer && (answer = nofs_drop(&it->nofs, folder->at, name)) && answer != NOFS_ENDED) unhide(it, *node);
    return answer;
}

static void remove_name(fuse_req_t request, fuse_ino_t parent, const char *name, enum nofs_kind kind)
{
    struct mount *it = mount_of(request);
    struct node *folder = node_of(it, parent), *node;
    if (is_refused_stale(request, folder, ESTALE)) return;
    int answer = it->open_files || it->ends ? look_and_drop(it, folder, name, kind, &node)
                                            : drop_at_once(it, folder, name, &node);
    if (!answer && node) {
        lost_name(it, folder, node);
        nodes_touch(&it->nodes, folder);
        nodes_forget(&it->nodes, node, 0);
    }
    reply_answer(request, answer);
}

void do_unlink(fuse_req_t request, fuse_ino_t parent, const char *name)
{
    remove_name(request, parent, name, NOFS_FILE);
}
void do_rmdir(fuse_req_t request, fuse_ino_t parent, const char *name)
{
    remove_name(request, parent, name, NOFS_DIRECTORY);
}

/* Renaming */

struct renaming { struct node *from, *to, *node, *there; const char *old, *new; };

/* What can be said before the names are looked up. */
static int early_error(const struct mount *it, const struct renaming *way, unsigned flags)
{
    if (way->from->stale || way->to->stale) return ESTALE;
    if (is_too_long(way->new)) return ENAMETOOLONG;
    if (flags & ~(unsigned)RENAME_NOREPLACE) return EINVAL;
    return is_hidden(it, way->to, way->new) ? EPERM : 0;
}

/* Who wrote a file, closed it and puts it in another's place hears here that what was written is lost. */
static int late_error(const struct renaming *way, unsigned flags)
{
    int is_folder = way->node->kind == NOFS_DIRECTORY;
    if (way->node->is_cut) {
        way->node->is_cut = 0;
        return EIO;
    }
    if (way->there && flags & RENAME_NOREPLACE) return EEXIST;
    if (way->from != way->to && (is_folder || way->node->links >= MOST_LINKS)) return EXDEV;
    if (way->there && way->there->kind != way->node->kind) return is_folder ? ENOTDIR : EISDIR;
    return 0;
}

/* Both names in two batches. A dead entry of the new name is no matter: a rename takes its place. */
static int look_both(struct mount *it, struct renaming *way)
{
    struct sight seen[2];
    struct node *nodes[2];
    if (is_hidden(it, way->from, way->old)) return NOFS_MISSING;
    nofs_begin(&it->nofs);
    nofs_add_look(&it->nofs, way->from->at, way->old);
    nofs_add_look(&it->nofs, way->to->at, way->new);
    int answer = nofs_send(&it->nofs);
    for (size_t n = 0; !answer && n < 2; n++) seen[n].answer = nofs_take_found(&it->nofs.replies[n], &seen[n].found);
    if (!answer) answer = nodes_of(it, seen, nodes, 2);
    if (answer) return answer;
    way->node = nodes[0];
    way->there = nodes[1];
    if (seen[0].answer || seen[1].answer == NOFS_MISSING || seen[1].answer == NOFS_LOST_ENTRY) return seen[0].answer;
    return seen[1].answer;
}

/* Who has looked the name up and opens it now gets the old file; where there is no room for that, the open is refused
 * as stale. */
static int keep_replaced(struct mount *it, struct node *node)
{
    int answer = keep(it, node, node->opened || node->seen);
    return node->opened || answer < 0 ? answer : NOFS_OK;
}

/* The record and the new bytes become durable together, before the old name goes. */
static int record_replace(struct mount *it, const struct renaming *way)
{
    struct replace replace = {0, way->to->at, way->node->at, way->from->at, "", ""};
    memcpy(replace.name, way->new, strlen(way->new));
    memcpy(replace.old, way->old, strlen(way->old));
    int answer = replace_record(it, replace);
    if (!answer) answer = mount_flush(it, 1);
    return answer ? answer : keep_replaced(it, way->there);
}

/* In one directory a name changes in its place: no room is needed. */
static int rename_within(struct mount *it, const struct renaming *way)
{
    size_t done;
    nofs_begin(&it->nofs);
    if (way->there) nofs_add_drop(&it->nofs, way->to->at, way->new);
    nofs_add_rename(&it->nofs, way->from->at, way->old, way->new);
    int answer = nofs_claim(&it->nofs, &done);
    if (answer && answer != NOFS_ENDED && !done) unhide(it, way->there);
    return answer;
}

/* To another directory: both names are there until the new one is durable. */
static int rename_across(struct mount *it, const struct renaming *way)
{
    size_t done;
    nofs_begin(&it->nofs);
    if (way->there) nofs_add_drop(&it->nofs, way->to->at, way->new);
    nofs_add_link(&it->nofs, way->to->at, way->new, way->node->at);
    int answer = nofs_claim(&it->nofs, &done);
    if (answer && answer != NOFS_ENDED && !done) unhide(it, way->there);
    if (!answer) answer = mount_flush(it, 0);
    return answer ? answer : nofs_drop(&it->nofs, way->from->at, way->old);
}

static int renamed(struct mount *it, const struct renaming *way)
{
    int answer = replace_settle(it, way->node->at);
    if (!answer && way->there) answer = record_replace(it, way);
    if (!answer) answer = way->from == way->to ? rename_within(it, way) : rename_across(it, way);
    if (answer && answer != NOFS_ENDED && way->there) replace_forget(it);
    if (answer) return answer;
    if (way->there) {
        lost_name(it, way->to, way->there);
        nodes_forget(&it->nodes, way->there, 0);
    }
    nodes_touch_record(&it->nodes, way->node);
    nodes_touch(&it->nodes, way->from);
    nodes_touch(&it->nodes, way->to);
    return NOFS_OK;
}

void do_rename(fuse_req_t request, fuse_ino_t parent, const char *old, fuse_ino_t new_parent, const char *new,
               unsigned flags)
{
    struct mount *it = mount_of(request);
    struct renaming way = {node_of(it, parent), node_of(it, new_parent), NULL, NULL, old, new};
    int error = early_error(it, &way, flags), answer = error ? NOFS_OK : look_both(it, &way);
    if (!error && !answer && way.node != way.there) error = late_error(&way, flags);
    if (error) fuse_reply_err(request, error);
    else if (answer || way.node == way.there) reply_answer(request, answer);
    else reply_answer(request, renamed(it, &way));
}
