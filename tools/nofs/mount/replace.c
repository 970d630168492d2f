/* The record of a replace: a rename onto a name that is there.
 *
 * No step gives a name another inode, so a replace is a drop and a rename, and a crash may leave any part of both.
 * The record says what is to be. It is durable by the flush that makes the new bytes durable, before the old file is
 * dropped.
 *
 * Promise: once what the records say is finished, the name has the old file or the new one, and neither lost anything
 * by the crash; but for a name that was never durable before.
 *
 * Two slots of the file `replace` take turns, since the rename of a replace is durable only by the flush of the next
 * one. */
#include "mount.h"

#include <stdio.h>
#include <string.h>

#define ASIDE HIDDEN_NAME "-aside"
#define LATER HIDDEN_NAME "-later"
enum { RECORD_BYTES = 192, TRIES = 4 };

struct record { struct replace replace; uint64_t size; };

/* Writing */

static uint8_t *put(uint8_t *to, uint64_t number, int bytes)
{
    for (; bytes > 0; bytes--, number >>= 8) *to++ = (uint8_t)number;
    return to;
}

static uint8_t *put_at(uint8_t *to, struct nofs_at at) { return put(put(to, at.inode, 4), at.generation, 8); }

static void add_record(struct mount *it, uint64_t slot, const struct record *record)
{
    uint8_t bytes[RECORD_BYTES] = {0}, *to = put(bytes, record->replace.number, 8);
    to = put_at(to, record->replace.folder);
    to = put_at(to, record->replace.node);
    to = put_at(to, record->replace.from);
    to = put(to, record->size, 8);
    memcpy(to, record->replace.name, NOFS_NAME_BYTES);
    memcpy(to + NOFS_NAME_BYTES, record->replace.old, NOFS_NAME_BYTES);
    nofs_add_put(&it->nofs, it->hidden.replace, slot, 0, bytes, sizeof bytes);
}

int replace_record(struct mount *it, struct replace replace)
{
    const struct node *node = nodes_find(&it->nodes, replace.node);
    if (!it->hidden.is_there) return NOFS_OK;
    struct record record = {replace, node ? node->size : 0};
    record.replace.number = ++it->hidden.replaces;
    it->hidden.replaced[record.replace.number % 2] = replace.node;
    nofs_begin(&it->nofs);
    add_record(it, record.replace.number % 2, &record);
    return nofs_claim(&it->nofs, NULL);
}

static int clear_records(struct mount *it)
{
    const struct record none = {0};
    nofs_begin(&it->nofs);
    for (uint64_t slot = 0; slot < 2; slot++) {
        add_record(it, slot, &none);
        it->hidden.replaced[slot] = none.replace.node;
    }
    return nofs_claim(&it->nofs, NULL);
}

void replace_forget(struct mount *it)
{
    if (it->hidden.is_there && !clear_records(it)) mount_flush(it, 0);
}

int replace_settle(struct mount *it, struct nofs_at node)
{
    if (!it->hidden.is_there || !(is_same(it->hidden.replaced[0], node) || is_same(it->hidden.replaced[1], node)))
        return NOFS_OK;
    int answer = mount_flush(it, 0);
    return answer ? answer : clear_records(it);
}

/* Looking at what a crash left */

struct counted { const char *name; int count; };

static void count_name(struct mount *it, const struct nofs_name *line, void *with)
{
    struct counted *counted = with;
    (void)it;
    counted->count += !strcmp(line->name, counted->name);
}

static int is_twice(struct mount *it, struct nofs_at folder, const char *name)
{
    struct counted counted = {name, 0};
    each_line(it, folder, count_name, &counted);
    return counted.count > 1;
}

static int leads_to(struct mount *it, struct nofs_at folder, const char *name, struct nofs_at node)
{
    struct nofs_found found;
    return !nofs_look(&it->nofs, folder, name, &found) && is_same(found.at, node);
}

static int has_lost_slot(struct mount *it)
{
    const uint8_t *bytes;
    enum nofs_value value;
    if (nofs_send(&it->nofs)) return 1;
    for (size_t n = 0; n < it->nofs.count; n++)
        if (nofs_take_value(&it->nofs.replies[n], &value, &bytes) || value == NOFS_LOST) return 1;
    return 0;
}

/* Whether no slot of a file is lost. */
static int is_whole(struct mount *it, struct nofs_at file, uint64_t *size)
{
    struct nofs_stat stat;
    if (nofs_stat(&it->nofs, file, &stat)) return 0;
    *size = stat.size;
    if (stat.kind == NOFS_DIRECTORY) return 1;
    uint64_t end = (stat.size + NOFS_SLOT_BYTES - 1) / NOFS_SLOT_BYTES;
    for (uint64_t slot = 0; slot < end; slot += STEPS_AT_ONCE) {
        nofs_begin(&it->nofs);
        for (uint64_t n = slot; n < end && n < slot + STEPS_AT_ONCE; n++) nofs_add_get(&it->nofs, file, n);
        if (has_lost_slot(it)) return 0;
    }
    return 1;
}

/* Finishing */

/* Whether the old name leads to the new file. A later file may have that name too, and before it: it is set aside
 * until the end. */
static int has_old_name(struct mount *it, const struct replace *of)
{
    if (leads_to(it, of->from, of->old, of->node)) return 1;
    if (!is_twice(it, of->from, of->old) || nofs_rename(&it->nofs, of->from, of->old, LATER)) return 0;
    return leads_to(it, of->from, of->old, of->node);
}

/* The name is there twice, and the first is the new file's. A drop takes the first, so that one is set aside; the
 * second is that of the next replace, which was done then, or the old file's, whose drop the crash took back. */
static void drop_other(struct mount *it, const struct replace *of, const struct replace *next)
{
    if (nofs_rename(&it->nofs, of->folder, of->name, ASIDE)) return;
    if (next && leads_to(it, of->folder, of->name, next->node)) {
        nofs_drop(&it->nofs, of->folder, ASIDE);
        return;
    }
    nofs_drop(&it->nofs, of->folder, of->name);
    nofs_rename(&it->nofs, of->folder, ASIDE, of->name);
}

/* What was set aside when the last try to finish was cut off. */
static void put_back_aside(struct mount *it, const struct replace *of)
{
    if (!leads_to(it, of->folder, ASIDE, of->node)) return;
    nofs_drop(&it->nofs, of->folder, of->name);
    nofs_rename(&it->nofs, of->folder, ASIDE, of->name);
}

static int put_in_place(struct mount *it, const struct replace *of)
{
    if (is_same(of->folder, of->from)) return nofs_rename(&it->nofs, of->folder, of->old, of->name);
    int answer = nofs_link(&it->nofs, of->folder, of->name, of->node);
    if (!answer) answer = mount_flush(it, 0);
    return answer ? answer : nofs_drop(&it->nofs, of->from, of->old);
}

/* Nothing has the name. The new file takes it where all of it is there: otherwise the record's flush was not whole,
 * and the name had never been durable. */
static void take_free_name(struct mount *it, const struct record *record)
{
    uint64_t size;
    if (is_whole(it, record->replace.node, &size) && size == record->size) put_in_place(it, &record->replace);
}

/* One look at the name, and what is to be done next; 0 where nothing is left to do. Where the old file is there and
 * whole it stays: the record may stand though its flush was not whole, and then the new bytes may not. Where it lost
 * a slot it had been dropped, which was after that flush. A dead entry of that name is no matter: a rename takes its
 * place. */
static int go_on(struct mount *it, const struct record *record, const struct replace *next, int has_old)
{
    const struct replace *of = &record->replace;
    struct nofs_found there;
    uint64_t size;
    int answer = nofs_look(&it->nofs, of->folder, of->name, &there);
    int twice = !answer && is_twice(it, of->folder, of->name);
    if (answer < 0 || (!answer && next && is_same(there.at, next->node))) return 0;
    if (!answer && is_same(there.at, of->node)) {
        if (twice) drop_other(it, of, next);
        if (has_old) nofs_drop(&it->nofs, of->from, of->old);
        return 0;
    }
    if (twice) return !nofs_drop(&it->nofs, of->folder, of->name);
    if (!has_old) return 0;
    if (!answer) return !is_whole(it, there.at, &size) && !nofs_drop(&it->nofs, of->folder, of->name);
    take_free_name(it, record);
    return 0;
}

static void finish(struct mount *it, const struct record *record, const struct replace *next)
{
    const struct replace *of = &record->replace;
    if (next && (!is_same(next->folder, of->folder) || strcmp(next->name, of->name))) next = NULL;
    put_back_aside(it, of);
    nofs_rename(&it->nofs, of->from, LATER, of->old);
    int has_old = has_old_name(it, of);
    for (int n = 0; n < TRIES && go_on(it, record, next, has_old); n++) {}
    nofs_rename(&it->nofs, of->from, LATER, of->old);
}

/* Reading */

static uint64_t get(const uint8_t **from, int bytes)
{
    uint64_t number = 0;
    for (int n = 0; n < bytes; n++) number |= (uint64_t)(*from)[n] << 8 * n;
    *from += bytes;
    return number;
}

static struct nofs_at get_at(const uint8_t **from)
{
    struct nofs_at at;
    at.inode = (uint32_t)get(from, 4);
    at.generation = get(from, 8);
    return at;
}

/* A record of zeros has the number 0, and so has a slot that is lost. */
static int read_record(struct mount *it, uint64_t slot, struct record *record, enum nofs_value *value)
{
    uint8_t bytes[NOFS_SLOT_BYTES];
    const uint8_t *from = bytes;
    memset(record, 0, sizeof *record);
    int answer = nofs_get(&it->nofs, it->hidden.replace, slot, bytes, value);
    if (answer) return answer;
    record->replace.number = get(&from, 8);
    record->replace.folder = get_at(&from);
    record->replace.node = get_at(&from);
    record->replace.from = get_at(&from);
    record->size = get(&from, 8);
    memcpy(record->replace.name, from, NOFS_NAME_BYTES);
    memcpy(record->replace.old, from + NOFS_NAME_BYTES, NOFS_NAME_BYTES);
    return NOFS_OK;
}

int replace_finish_all(struct mount *it)
{
    struct record records[2];
    enum nofs_value values[2];
    for (uint64_t slot = 0; slot < 2; slot++) {
        int answer = read_record(it, slot, &records[slot], &values[slot]);
        if (answer) return answer;
    }
    int first = records[0].replace.number > records[1].replace.number;
    const struct record *older = &records[first], *newer = &records[!first];
    if (older->replace.number) finish(it, older, &newer->replace);
    if (newer->replace.number) finish(it, newer, NULL);
    if (!newer->replace.number && values[0] == NOFS_BYTES && values[1] == NOFS_BYTES) return NOFS_OK;
    int answer = it->nofs.ended ? NOFS_ENDED : mount_flush(it, 0);
    return answer ? answer : clear_records(it);
}
