/* Contents: a read is Gets and a write is Puts, in one batch each. What caches them is the kernel.
 *
 * Promise: a lost slot is never shown as anything, nor as the end of the file. What a write stored is told as a short
 * count, and its refusal only where nothing was stored; size and content are the image's at each moment. */
#define _GNU_SOURCE
#include "requests.h"

#include <errno.h>
#include <fcntl.h>
#include <linux/falloc.h>
#include <string.h>
#include <unistd.h>

enum { SLOT = NOFS_SLOT_BYTES, LOOKED_AT_FIRST = 64, DAY = 86400 };

static uint64_t slots_of(uint64_t bytes) { return (bytes + SLOT - 1) / SLOT; }
static uint64_t least(uint64_t a, uint64_t b) { return a < b ? a : b; }

/* Getting */

/* The bytes of the slots, up to one that is lost; `*is_whole` says that none is. They are in the buffer. */
static int get(struct mount *it, const struct node *node, uint64_t first, uint64_t end, size_t *got, int *is_whole)
{
    nofs_begin(&it->nofs);
    for (uint64_t slot = first; slot < end; slot++) nofs_add_get(&it->nofs, node->at, slot);
    int answer = nofs_send(&it->nofs);
    *got = 0;
    *is_whole = 1;
    it->ahead.node = NULL;
    for (size_t n = 0; !answer && *is_whole && n < it->nofs.count; n++) {
        const uint8_t *bytes = NULL;
        enum nofs_value value = NOFS_LOST;
        answer = nofs_take_value(&it->nofs.replies[n], &value, &bytes);
        if (answer == NOFS_LOST_SLOT) answer = NOFS_OK;
        *is_whole = !answer && value != NOFS_LOST;
        if (*is_whole) memmove(it->buffer + *got, bytes, SLOT), *got += SLOT;
    }
    return answer;
}

static void note_loss(struct node *node, uint64_t slot)
{
    if (!node->is_lossy) tell("slot %llu of inode %u is lost", (unsigned long long)slot, node->at.inode);
    node->is_lossy = 1;
}

/* Where a page has a lost slot the kernel can show none of it: a short one would be taken for the end of the file. So
 * a small file is got when it is first opened, and one that has lost a slot is read without the kernel's pages. What
 * was got is the answer to the read that follows. A large file is found lossy by the read itself, and from the next
 * open on. */
static int look_for_losses(struct mount *it, struct node *node)
{
    size_t got;
    int is_whole;
    if (node->is_looked_at || node->size > LOOKED_AT_FIRST * SLOT) return NOFS_OK;
    int answer = get(it, node, 0, slots_of(node->size), &got, &is_whole);
    if (answer) return answer;
    if (!is_whole) note_loss(node, got / SLOT);
    node->is_looked_at = 1;
    it->ahead.node = is_whole ? node : NULL;
    it->ahead.length = got;
    return NOFS_OK;
}

/* Files that are open
 *
 * The handle says whether the file is read without the kernel's pages: what libfuse gives a read of the open's answer
 * is the handle alone. */

static int is_direct(const struct fuse_file_info *file) { return file->fh != 0; }

static void open_handle(struct mount *it, struct node *node, struct fuse_file_info *file)
{
    node->opened++;
    it->open_files++;
    file->fh = node->is_lossy;
    file->keep_cache = !node->is_lossy; /* nobody but the kernel changes it */
    file->direct_io = node->is_lossy != 0;
    file->noflush = (file->flags & O_ACCMODE) == O_RDONLY;
}

void close_node(struct mount *it, struct node *node)
{
    if (node->kind == NOFS_FILE) it->open_files--;
    if (--node->opened == 0 && node->hidden && !node->seen) hidden_let_go(it, node);
    if (it->ahead.node == node) it->ahead.node = NULL;
    nodes_forget(&it->nodes, node, 0);
}

/* Removed between the caller's lookup and its open: at ESTALE the kernel looks the name up again. */
void do_open(fuse_req_t request, fuse_ino_t number, struct fuse_file_info *file)
{
    struct mount *it = mount_of(request);
    struct node *node = node_of(it, number);
    int answer = node->stale || node->gone ? NOFS_STALE : NOFS_OK;
    if (!answer && file->flags & O_TRUNC && node->size) answer = resize(it, node, 0);
    else if (!answer && (file->flags & O_ACCMODE) != O_WRONLY) answer = look_for_losses(it, node);
    if (answer && file->flags & O_TRUNC) reply_answer(request, answer);
    else if (answer) reply_asked(request, answer);
    if (answer) return;
    open_handle(it, node, file);
    if (fuse_reply_open(request, file)) close_node(it, node);
}

void do_create(fuse_req_t request, fuse_ino_t parent, const char *name, mode_t mode, struct fuse_file_info *file)
{
    struct mount *it = mount_of(request);
    struct node *node = make(request, parent, name, NOFS_FILE, mode);
    if (!node) return;
    struct fuse_entry_param entry;
    fill_entry(it, node, &entry);
    open_handle(it, node, file);
    if (!fuse_reply_create(request, &entry, file)) return;
    close_node(it, node);
    nodes_forget(&it->nodes, node, 1);
}

void do_release(fuse_req_t request, fuse_ino_t number, struct fuse_file_info *file)
{
    struct mount *it = mount_of(request);
    (void)file;
    close_node(it, node_of(it, number));
    fuse_reply_err(request, 0);
}

/* Who has a file open when the program's session ends without a flush hears of it at each of these. */
void do_flush(fuse_req_t request, fuse_ino_t number, struct fuse_file_info *file)
{
    (void)file;
    if (!is_refused_stale(request, node_of(mount_of(request), number), EIO)) fuse_reply_err(request, 0);
}

void do_fsync(fuse_req_t request, fuse_ino_t number, int only_data, struct fuse_file_info *file)
{
    struct mount *it = mount_of(request);
    (void)file;
    if (!is_refused_stale(request, node_of(it, number), EIO)) reply_answer(request, mount_flush(it, !only_data));
}

/* Reading */

/* As a mount with `relatime` does, for the reads that the kernel asks for. */
static void note_access(struct mount *it, const struct node *node)
{
    struct attributes kept = *nodes_attributes(&it->nodes, node), *changed;
    struct timespec now;
    clock_gettime(CLOCK_REALTIME_COARSE, &now);
    int is_older = kept.accessed.tv_sec < kept.modified.tv_sec ||
                   (kept.accessed.tv_sec == kept.modified.tv_sec && kept.accessed.tv_nsec <= kept.modified.tv_nsec);
    if (!is_older && now.tv_sec - kept.accessed.tv_sec < DAY) return;
    if ((changed = nodes_change(&it->nodes, node))) changed->accessed = now;
}

/* From `at` to `end`, which lies behind it. A page has all or nothing. */
static void read_bytes(fuse_req_t request, struct node *node, uint64_t at, uint64_t end, int is_by_page)
{
    struct mount *it = mount_of(request);
    uint64_t first = it->ahead.node == node ? 0 : at / SLOT;
    size_t within = at - first * SLOT, got = it->ahead.length;
    int is_whole = 1, answer = NOFS_OK;
    if (it->ahead.node != node) answer = get(it, node, first, slots_of(end), &got, &is_whole);
    if (!answer && !is_whole) {
        note_loss(node, first + got / SLOT);
        if (is_by_page || got <= within) answer = NOFS_LOST_SLOT;
    }
    if (answer) reply_answer(request, answer);
    else fuse_reply_buf(request, it->buffer + within, least(got, end - first * SLOT) - within);
}

void do_read(fuse_req_t request, fuse_ino_t number, size_t size, off_t from, struct fuse_file_info *file)
{
    struct mount *it = mount_of(request);
    struct node *node = node_of(it, number);
    uint64_t at = (uint64_t)from, end = least(at + least(size, MOST_BYTES), node->size);
    if (is_refused_stale(request, node, EIO)) return;
    note_access(it, node);
    if (at >= end) fuse_reply_buf(request, NULL, 0);
    else read_bytes(request, node, at, end, !is_direct(file));
}

/* The first slot from `slot` on that is a hole, or is none; a lost one is none. `end` where there is no such slot. */
static int find_slot(struct mount *it, const struct node *node, uint64_t slot, uint64_t end, int is_hole,
                     uint64_t *found)
{
    for (uint64_t count = 4; slot < end; slot += count, count = least(4 * count, STEPS_AT_ONCE)) {
        count = least(count, end - slot);
        nofs_begin(&it->nofs);
        for (uint64_t n = 0; n < count; n++) nofs_add_get(&it->nofs, node->at, slot + n);
        int answer = nofs_send(&it->nofs);
        for (uint64_t n = 0; !answer && n < count; n++) {
            const uint8_t *bytes;
            enum nofs_value value = NOFS_LOST;
            answer = nofs_take_value(&it->nofs.replies[n], &value, &bytes);
            if (answer == NOFS_LOST_SLOT) answer = NOFS_OK;
            *found = slot + n;
            if (!answer && (value == NOFS_HOLE) == is_hole) return NOFS_OK;
        }
        if (answer) return answer;
    }
    *found = end;
    return NOFS_OK;
}

void do_lseek(fuse_req_t request, fuse_ino_t number, off_t from, int whence, struct fuse_file_info *file)
{
    struct mount *it = mount_of(request);
    struct node *node = node_of(it, number);
    uint64_t at = (uint64_t)from, found;
    (void)file;
    if (is_refused_stale(request, node, EIO)) return;
    if (from < 0 || at >= node->size) {
        fuse_reply_err(request, ENXIO);
        return;
    }
    int answer = find_slot(it, node, at / SLOT, slots_of(node->size), whence == SEEK_HOLE, &found);
    uint64_t place = least(found * SLOT > at ? found * SLOT : at, node->size);
    if (answer) reply_answer(request, answer);
    else if (whence == SEEK_DATA && place >= node->size) fuse_reply_err(request, ENXIO);
    else fuse_reply_lseek(request, (off_t)place);
}

/* Writing */

int resize(struct mount *it, struct node *node, uint64_t size)
{
    if (node->kind == NOFS_DIRECTORY) return NOFS_IS_A_DIRECTORY;
    if (size > it->most) return NOFS_TOO_LARGE;
    it->ahead.node = NULL;
    int answer = nofs_resize(&it->nofs, node->at, size);
    if (answer) return answer;
    node->size = size;
    if (size == 0) node->is_lossy = 0;
    nodes_note_change(&it->nodes, node);
    nodes_touch(&it->nodes, node);
    return NOFS_OK;
}

/* The steps of a write: what lies between the end and its first byte becomes a hole, then a put for each slot. */
static void add_write(struct mount *it, const struct node *node, const char *bytes, size_t size, uint64_t at)
{
    nofs_begin(&it->nofs);
    if (at > node->size) nofs_add_resize(&it->nofs, node->at, at);
    while (size) {
        uint32_t within = at % SLOT;
        size_t some = least(SLOT - within, size);
        nofs_add_put(&it->nofs, node->at, at / SLOT, within, bytes, some);
        bytes += some, size -= some, at += some;
    }
}

/* How many bytes the first `done` steps have stored. */
static size_t stored_by(size_t done, uint64_t size, uint64_t at, int is_resized)
{
    size_t puts = done - (done && is_resized ? 1 : 0);
    return puts ? least(puts * SLOT - at % SLOT, size) : 0;
}

/* Of a batch of which one put was refused, later ones may have been accepted and have made the file longer. */
static void cut_back(struct mount *it, struct node *node, uint64_t size)
{
    struct nofs_stat stat;
    if (nofs_stat(&it->nofs, node->at, &stat)) return;
    node->size = stat.size;
    if (node->size > size) resize(it, node, size);
}

/* Stores what there is room for, and gives the refusal only where nothing was stored. */
static int store(struct mount *it, struct node *node, const char *bytes, size_t size, uint64_t at, size_t *stored)
{
    uint64_t old = node->size;
    size_t done;
    it->ahead.node = NULL;
    add_write(it, node, bytes, size, at);
    int answer = nofs_claim(&it->nofs, &done);
    *stored = stored_by(done, size, at, at > old);
    if (*stored && at + *stored > old) node->size = at + *stored;
    if (answer && answer != NOFS_ENDED) cut_back(it, node, node->size);
    if (*stored) {
        nodes_note_change(&it->nodes, node);
        nodes_touch(&it->nodes, node);
    }
    return answer == NOFS_ENDED || !*stored ? answer : NOFS_OK;
}

void do_write(fuse_req_t request, fuse_ino_t number, const char *bytes, size_t size, off_t to,
              struct fuse_file_info *file)
{
    struct mount *it = mount_of(request);
    struct node *node = node_of(it, number);
    uint64_t at = (uint64_t)to;
    size_t stored;
    (void)file;
    if (is_refused_stale(request, node, EIO)) return;
    if (at >= it->most) {
        fuse_reply_err(request, EFBIG);
        return;
    }
    int answer = store(it, node, bytes, least(size, it->most - at), at, &stored);
    if (answer) reply_answer(request, answer);
    else fuse_reply_write(request, stored);
}

/* Room that is taken beforehand, and bytes that become zeros */

static int store_zeros(struct mount *it, struct node *node, uint64_t at, uint64_t end)
{
    static const char zeros[64 * SLOT];
    while (at < end) {
        size_t stored;
        int answer = store(it, node, zeros, least(sizeof zeros, end - at), at, &stored);
        if (answer) return answer;
        at += stored;
    }
    return NOFS_OK;
}

/* Zeros for each hole below `end`, which is not behind the file's end: a write there needs no more room then. */
static int fill_holes(struct mount *it, struct node *node, uint64_t at, uint64_t end)
{
    uint64_t from = at / SLOT, to = slots_of(end), other;
    for (;;) {
        int answer = find_slot(it, node, from, to, 1, &from);
        if (answer || from >= to) return answer;
        if ((answer = find_slot(it, node, from, to, 0, &other))) return answer;
        if ((answer = store_zeros(it, node, from * SLOT, least(other * SLOT, node->size)))) return answer;
        from = other;
    }
}

static int allocate(struct mount *it, struct node *node, int mode, uint64_t at, uint64_t end)
{
    uint64_t old = node->size;
    if (mode & FALLOC_FL_PUNCH_HOLE) return store_zeros(it, node, at, least(end, old));
    if (end > it->most) return NOFS_TOO_LARGE;
    if (mode & FALLOC_FL_ZERO_RANGE)
        return store_zeros(it, node, at, mode & FALLOC_FL_KEEP_SIZE ? least(end, old) : end);
    int answer = end > old ? resize(it, node, end) : NOFS_OK;
    if (!answer) answer = fill_holes(it, node, at, end);
    if (answer && answer != NOFS_ENDED && node->size > old) resize(it, node, old);
    return answer;
}

/* Room behind the end is not kept: who asks for it is told so. */
void do_fallocate(fuse_req_t request, fuse_ino_t number, int mode, off_t from, off_t length,
                  struct fuse_file_info *file)
{
    struct mount *it = mount_of(request);
    struct node *node = node_of(it, number);
    uint64_t at = (uint64_t)from, end = at + (uint64_t)length;
    const int known = FALLOC_FL_KEEP_SIZE | FALLOC_FL_PUNCH_HOLE | FALLOC_FL_ZERO_RANGE;
    (void)file;
    if (is_refused_stale(request, node, EIO)) return;
    if (mode & ~known || (mode == FALLOC_FL_KEEP_SIZE && end > node->size)) fuse_reply_err(request, EOPNOTSUPP);
    else reply_answer(request, allocate(it, node, mode, at, end));
}
