/* Directories: what an open one lists was read when its reading began, so a name that goes or comes meanwhile moves
 * no other. */
#define _GNU_SOURCE
#include "requests.h"

#include <errno.h>
#include <stdlib.h>
#include <string.h>
#include <sys/stat.h>

enum { LISTED_AT_ONCE = 8, COUNTED_AT_ONCE = TOLD_FOLDERS };

/* Lines */

static void add_to(struct lines *it, const struct nofs_name *line)
{
    if (it->count == it->room) {
        struct nofs_name *more = realloc(it->lines, (2 * it->room + 64) * sizeof *more);
        it->has_no_memory = it->has_no_memory || !more;
        if (!more) return;
        it->lines = more;
        it->room = 2 * it->room + 64;
    }
    it->lines[it->count++] = *line;
}

/* Walking over the lines */

static void add_lists(struct mount *it, struct nofs_at folder, uint64_t first)
{
    for (uint64_t n = 0; n < LISTED_AT_ONCE; n++) nofs_add_list(&it->nofs, folder, first + n);
}

/* The slots of so many Lists, whose replies begin at `place`: List gives the first slot from a place on that has names,
 * so one may come more than once. */
static int take_slots(struct mount *it, size_t place, uint64_t first, struct nofs_names *names, int *count, int *is_end)
{
    uint64_t next = first;
    *count = *is_end = 0;
    for (uint64_t n = 0; n < LISTED_AT_ONCE && !*is_end; n++) {
        if (first + n < next) continue;
        int answer = nofs_take_names(&it->nofs.replies[place + n], first + n, &names[*count]);
        if (answer) return answer;
        *is_end = names[*count].end;
        next = names[*count].slot + 1;
        if (!*is_end) ++*count;
    }
    return NOFS_OK;
}

static void call_lines(struct mount *it, struct nofs_at folder, const struct nofs_names *names, int count,
                       of_line *call, void *with)
{
    for (int n = 0; n < count; n++) {
        if (names[n].lost)
            tell("slot %llu of directory %u is lost", (unsigned long long)names[n].slot, folder.inode);
        for (int k = 0; k < names[n].count; k++)
            if (!names[n].names[k].dead) call(it, &names[n].names[k], with);
    }
}

int each_line(struct mount *it, struct nofs_at folder, of_line *call, void *with)
{
    struct nofs_names names[LISTED_AT_ONCE];
    int is_end = 0;
    for (uint64_t next = 0; !is_end;) {
        int count;
        nofs_begin(&it->nofs);
        add_lists(it, folder, next);
        int answer = nofs_send(&it->nofs);
        if (!answer) answer = take_slots(it, 0, next, names, &count, &is_end);
        if (answer) return answer;
        call_lines(it, folder, names, count, call, with);
        if (count) next = names[count - 1].slot + 1;
    }
    return NOFS_OK;
}

/* Counting the directories in a directory */

static void count_folder(struct mount *it, const struct nofs_name *line, void *with)
{
    struct node *node = with;
    if (line->kind == NOFS_DIRECTORY && !is_hidden(it, node, line->name)) node->folders++;
}

int count_folders(struct mount *it, struct node *node)
{
    node->folders = 0;
    int answer = each_line(it, node->at, count_folder, node);
    if (!answer) node->is_counted = 1;
    return answer;
}

/* What was listed to be counted, which is often read next: it stands while no name changes and no session ends. */

static void begin_told(struct mount *it)
{
    it->told.names_changed = it->nofs.names_changed;
    it->told.ends = it->ends;
    it->told.folders = it->told.all.count = 0;
    it->told.all.has_no_memory = 0;
}

static void tell_line(struct mount *it, const struct nofs_name *line, void *with)
{
    (void)with;
    add_to(&it->told.all, line);
}

/* One with a slot that is lost is asked for again. */
static void tell_lines(struct mount *it, struct nofs_at folder, const struct nofs_names *names, int count)
{
    struct told_lines *told = &it->told.of[it->told.folders];
    for (int n = 0; n < count; n++)
        if (names[n].lost) return;
    told->at = folder;
    told->first = it->told.all.count;
    call_lines(it, folder, names, count, tell_line, NULL);
    told->count = it->told.all.count - told->first;
    it->told.folders += !it->told.all.has_no_memory;
}

static const struct told_lines *told_of(const struct mount *it, struct nofs_at folder)
{
    if (it->told.names_changed != it->nofs.names_changed || it->told.ends != it->ends) return NULL;
    for (size_t n = 0; n < it->told.folders; n++)
        if (is_same(it->told.of[n].at, folder)) return &it->told.of[n];
    return NULL;
}

/* In one batch; one with more slots than are listed at once is listed again, by itself. */
static int count_together(struct mount *it, struct node **nodes, size_t count)
{
    begin_told(it);
    nofs_begin(&it->nofs);
    for (size_t n = 0; n < count; n++) add_lists(it, nodes[n]->at, 0);
    int answer = nofs_send(&it->nofs);
    for (size_t n = 0; !answer && n < count; n++) {
        struct nofs_names names[LISTED_AT_ONCE];
        int slots;
        nodes[n]->folders = 0;
        answer = take_slots(it, n * LISTED_AT_ONCE, 0, names, &slots, &nodes[n]->is_counted);
        if (!nodes[n]->is_counted) continue;
        call_lines(it, nodes[n]->at, names, slots, count_folder, nodes[n]);
        tell_lines(it, nodes[n]->at, names, slots);
    }
    for (size_t n = 0; !answer && n < count; n++)
        if (!nodes[n]->is_counted) answer = count_folders(it, nodes[n]);
    return answer;
}

int count_new_folders(struct mount *it, struct node *const *nodes, size_t count)
{
    struct node *some[COUNTED_AT_ONCE];
    int answer = NOFS_OK;
    for (size_t n = 0; !answer && n < count;) {
        size_t found = 0;
        for (; n < count && found < COUNTED_AT_ONCE; n++)
            if (nodes[n] && nodes[n]->kind == NOFS_DIRECTORY && !nodes[n]->is_counted) some[found++] = nodes[n];
        if (found) answer = count_together(it, some, found);
    }
    return answer;
}

/* Directories that are open */

struct listing {
    struct listing *next, **at; /* the next one that is open, and what names this one */
    struct lines all;
    int is_read;
    uint64_t ends;              /* sessions that had ended without a flush when it was opened */
    const struct node *folder;
};

static struct listing *listing_of(const struct fuse_file_info *file) { return (struct listing *)(uintptr_t)file->fh; }

static void add_listing(struct mount *it, struct listing *made)
{
    made->next = it->listings;
    made->at = &it->listings;
    if (made->next) made->next->at = &made->next;
    it->listings = made;
}

static void drop_listing(struct listing *listing)
{
    *listing->at = listing->next;
    if (listing->next) listing->next->at = listing->at;
    free(listing->all.lines);
    free(listing);
}

void listings_close(struct mount *it)
{
    while (it->listings) drop_listing(it->listings);
    free(it->told.all.lines);
}

void do_opendir(fuse_req_t request, fuse_ino_t number, struct fuse_file_info *file)
{
    struct mount *it = mount_of(request);
    struct node *folder = node_of(it, number);
    if (is_refused_stale(request, folder, ESTALE)) return;
    struct listing *made = calloc(1, sizeof *made);
    if (!made) {
        fuse_reply_err(request, ENOMEM);
        return;
    }
    add_listing(it, made);
    made->ends = it->ends;
    made->folder = folder;
    file->fh = (uint64_t)(uintptr_t)made;
    file->cache_readdir = file->keep_cache = 1;
    folder->opened++;
    if (!fuse_reply_open(request, file)) return;
    drop_listing(made);
    close_node(it, folder);
}

void do_releasedir(fuse_req_t request, fuse_ino_t number, struct fuse_file_info *file)
{
    struct mount *it = mount_of(request);
    drop_listing(listing_of(file));
    close_node(it, node_of(it, number));
    fuse_reply_err(request, 0);
}

static void add_line(struct mount *it, const struct nofs_name *line, void *with)
{
    struct listing *listing = with;
    if (!is_hidden(it, listing->folder, line->name)) add_to(&listing->all, line);
}

static int read_lines(struct mount *it, struct listing *listing)
{
    const struct nofs_name self = {".", NOFS_DIRECTORY, 0}, parent = {"..", NOFS_DIRECTORY, 0};
    const struct told_lines *told = listing->folder->gone ? NULL : told_of(it, listing->folder->at);
    int answer = NOFS_OK;
    listing->all.count = listing->all.has_no_memory = 0;
    add_to(&listing->all, &self);
    add_to(&listing->all, &parent);
    if (!told && !listing->folder->gone) answer = each_line(it, listing->folder->at, add_line, listing);
    for (size_t n = 0; told && n < told->count; n++) add_line(it, &it->told.all.lines[told->first + n], listing);
    return answer ? answer : listing->all.has_no_memory ? NOFS_NO_MEMORY : NOFS_OK;
}

/* Answers */

/* The lines of an answer, from a place on, as many as have room; `seen` is what was looked up, and none of the first
 * `dots` lines, which are the directory and the one above. */
struct part { struct nofs_name *lines; struct node **nodes; struct sight *seen; size_t place, count, dots; };

typedef size_t room_of_line(fuse_req_t request, const char *name);

static size_t room_of_plain(fuse_req_t request, const char *name)
{
    return fuse_add_direntry(request, NULL, 0, name, NULL, 0);
}

static size_t room_with_node(fuse_req_t request, const char *name)
{
    return fuse_add_direntry_plus(request, NULL, 0, name, NULL, 0);
}

static struct part part_of(fuse_req_t request, const struct listing *listing, size_t size, size_t place,
                           room_of_line *room)
{
    struct part it = {listing->all.lines + place, NULL, NULL, place, 0, place < 2 ? 2 - place : 0};
    for (size_t length = 0; place + it.count < listing->all.count; it.count++) {
        length += room(request, it.lines[it.count].name);
        if (length > size) break;
    }
    if (it.dots > it.count) it.dots = it.count;
    it.nodes = calloc(it.count + 1, sizeof *it.nodes);
    it.seen = calloc(it.count + 1, sizeof *it.seen);
    return it;
}

static void free_part(struct part *part)
{
    free(part->nodes);
    free(part->seen);
}

static int look_part(struct mount *it, const struct node *folder, struct part *part)
{
    if (!part->nodes || !part->seen) return NOFS_NO_MEMORY;
    nofs_begin(&it->nofs);
    for (size_t n = part->dots; n < part->count; n++) nofs_add_look(&it->nofs, folder->at, part->lines[n].name);
    int answer = nofs_send(&it->nofs);
    for (size_t n = part->dots; !answer && n < part->count; n++)
        part->seen[n].answer = nofs_take_found(&it->nofs.replies[n - part->dots], &part->seen[n].found);
    return answer;
}

/* The number of an inode is all that such a line tells of it. */
static size_t add_plain(fuse_req_t request, const struct node *folder, const struct part *part, char *to, size_t size)
{
    const ino_t unknown = 0xFFFFFFFF;
    size_t length = 0;
    for (size_t n = 0; n < part->count; n++) {
        struct stat stat;
        memset(&stat, 0, sizeof stat);
        stat.st_ino = part->place + n == 0 ? folder->at.inode : unknown;
        if (n >= part->dots && !part->seen[n].answer) stat.st_ino = part->seen[n].found.at.inode;
        stat.st_mode = part->lines[n].kind == NOFS_DIRECTORY ? S_IFDIR : S_IFREG;
        off_t next = (off_t)(part->place + n) + 1;
        length += fuse_add_direntry(request, to + length, size - length, part->lines[n].name, &stat, next);
    }
    return length;
}

static void reply_names(fuse_req_t request, struct listing *listing, size_t size, size_t place)
{
    struct part part = part_of(request, listing, size, place, room_of_plain);
    char *to = mount_of(request)->buffer;
    int answer = look_part(mount_of(request), listing->folder, &part);
    if (answer) reply_asked(request, answer);
    else fuse_reply_buf(request, to, add_plain(request, listing->folder, &part, to, size));
    free_part(&part);
}

/* A line that was removed since the directory was opened is left out. */
static size_t add_part(fuse_req_t request, const struct node *folder, struct part *part, char *to, size_t size)
{
    struct mount *it = mount_of(request);
    size_t length = 0;
    for (size_t n = 0; n < part->count; n++) {
        struct fuse_entry_param entry;
        if (n >= part->dots && !part->nodes[n]) continue;
        if (n < part->dots) fill_unseen(it, folder, &entry);
        else fill_entry(it, part->nodes[n], &entry);
        off_t next = (off_t)(part->place + n) + 1;
        length += fuse_add_direntry_plus(request, to + length, size - length, part->lines[n].name, &entry, next);
    }
    return length;
}

/* An answer without a line would be taken for the directory's end: where all of a part was removed since it was
 * opened, the next part follows. */
static int fill_part(fuse_req_t request, struct listing *listing, struct part *part, char *to, size_t size,
                     size_t *length)
{
    struct mount *it = mount_of(request);
    for (;;) {
        int answer = look_part(it, listing->folder, part);
        if (!answer)
            answer = nodes_of(it, part->seen + part->dots, part->nodes + part->dots, part->count - part->dots);
        if (answer) return answer;
        *length = add_part(request, listing->folder, part, to, size);
        if (*length || !part->count) return NOFS_OK;
        size_t next = part->place + part->count;
        free_part(part);
        *part = part_of(request, listing, size, next, room_with_node);
    }
}

/* The kernel did not take the entries. */
static void forget_part(struct mount *it, const struct part *part)
{
    for (size_t n = part->dots; n < part->count; n++)
        if (part->nodes[n]) nodes_forget(&it->nodes, part->nodes[n], 1);
}

static void reply_names_with_nodes(fuse_req_t request, struct listing *listing, size_t size, size_t place)
{
    struct mount *it = mount_of(request);
    struct part part = part_of(request, listing, size, place, room_with_node);
    size_t length = 0;
    int answer = fill_part(request, listing, &part, it->buffer, size, &length);
    if (answer) reply_asked(request, answer);
    else if (fuse_reply_buf(request, it->buffer, length)) forget_part(it, &part);
    free_part(&part);
}

typedef void names_reply(fuse_req_t request, struct listing *listing, size_t size, size_t place);

static void read_folder(fuse_req_t request, size_t size, off_t from, struct fuse_file_info *file, names_reply *reply)
{
    struct mount *it = mount_of(request);
    struct listing *listing = listing_of(file);
    if (is_refused_stale(request, listing->folder, ESTALE)) return;
    int answer = from == 0 || !listing->is_read ? read_lines(it, listing) : NOFS_OK;
    listing->is_read = !answer;
    it->ahead.node = NULL;      /* the answer is made in the buffer */
    if (size > MOST_BYTES) size = MOST_BYTES;
    size_t place = from < 0 || (size_t)from > listing->all.count ? listing->all.count : (size_t)from;
    if (answer) reply_asked(request, answer);
    else reply(request, listing, size, place);
}

void do_readdir(fuse_req_t request, fuse_ino_t number, size_t size, off_t place, struct fuse_file_info *file)
{
    (void)number;
    read_folder(request, size, place, file, reply_names);
}

void do_readdirplus(fuse_req_t request, fuse_ino_t number, size_t size, off_t place, struct fuse_file_info *file)
{
    (void)number;
    read_folder(request, size, place, file, reply_names_with_nodes);
}

/* Who opened it before a session ended may have made names in it that are lost. */
void do_fsyncdir(fuse_req_t request, fuse_ino_t number, int only_data, struct fuse_file_info *file)
{
    struct mount *it = mount_of(request);
    (void)number, (void)only_data;
    if (listing_of(file)->ends != it->ends) fuse_reply_err(request, EIO);
    else reply_answer(request, mount_flush(it, 1));
}
