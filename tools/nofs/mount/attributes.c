/* Permissions, owners and times: a record of 64 bytes for an inode, at its number in each of two files of the hidden folder.
 *
 * Promise: a record counts only for the generation that it has, so one that is lost, or older than its inode, gives the
 * defaults and never another file's. That there is no room for them is told, and is no reason to refuse a flush. */
#include "mount.h"

#include <string.h>

enum { RECORD_BYTES = 64, IN_SLOT = NOFS_SLOT_BYTES / RECORD_BYTES, SECOND = 1000000000 };

static void put_number(uint8_t **to, uint64_t number, int bytes)
{
    for (; bytes > 0; bytes--, number >>= 8) *(*to)++ = (uint8_t)number;
}

static uint64_t get_number(const uint8_t **from, int bytes)
{
    uint64_t number = 0;
    for (int n = 0; n < bytes; n++) number |= (uint64_t)(*from)[n] << 8 * n;
    *from += bytes;
    return number;
}

static void put_time(uint8_t **to, struct timespec time)
{
    put_number(to, (uint64_t)time.tv_sec, 8);
    put_number(to, (uint64_t)time.tv_nsec, 4);
}

static struct timespec get_time(const uint8_t **from)
{
    struct timespec time;
    time.tv_sec = (time_t)get_number(from, 8);
    uint64_t part = get_number(from, 4);
    time.tv_nsec = part < SECOND ? (long)part : 0;
    return time;
}

static void put_record(uint8_t *to, const struct attributes *kept)
{
    put_number(&to, kept->generation, 8);
    put_number(&to, kept->mode, 4);
    put_number(&to, kept->owner, 4);
    put_number(&to, kept->group, 4);
    put_time(&to, kept->accessed);
    put_time(&to, kept->modified);
    put_time(&to, kept->changed);
}

static struct attributes get_record(const uint8_t *from)
{
    struct attributes kept;
    kept.generation = get_number(&from, 8);
    kept.mode = (uint32_t)get_number(&from, 4) & 07777;
    kept.owner = (uint32_t)get_number(&from, 4);
    kept.group = (uint32_t)get_number(&from, 4);
    kept.accessed = get_time(&from);
    kept.modified = get_time(&from);
    kept.changed = get_time(&from);
    return kept;
}

/* A file of version 1 has no room for the records of more than 1,151 inodes. */
static uint32_t kept_inodes(const struct mount *it)
{
    uint64_t room = it->most / RECORD_BYTES, count = (uint64_t)it->nodes.inodes + 1;
    return (uint32_t)(count < room ? count : room);
}

uint64_t attributes_bytes(const struct mount *it) { return (uint64_t)kept_inodes(it) * RECORD_BYTES; }

static void take_slot(struct mount *it, int file, uint32_t slot, const struct nofs_reply *reply)
{
    const uint8_t *bytes;
    enum nofs_value value;
    if (nofs_take_value(reply, &value, &bytes) || value != NOFS_BYTES) return;
    for (uint32_t n = 0; n < IN_SLOT && slot * IN_SLOT + n < kept_inodes(it); n++)
        it->nodes.attributes[slot * IN_SLOT + n].of[file] = get_record(bytes + RECORD_BYTES * n);
}

static int load_file(struct mount *it, int file)
{
    uint32_t slots = (kept_inodes(it) + IN_SLOT - 1) / IN_SLOT;
    for (uint32_t slot = 0; slot < slots; slot += STEPS_AT_ONCE) {
        nofs_begin(&it->nofs);
        for (uint32_t n = slot; n < slots && n < slot + STEPS_AT_ONCE; n++)
            nofs_add_get(&it->nofs, it->hidden.attributes[file], n);
        int answer = nofs_send(&it->nofs);
        if (answer) return answer;
        for (size_t n = 0; n < it->nofs.count; n++) take_slot(it, file, slot + (uint32_t)n, &it->nofs.replies[n]);
    }
    return NOFS_OK;
}

int attributes_load(struct mount *it)
{
    int answer = load_file(it, 0);
    return answer ? answer : load_file(it, 1);
}

/* A put for inodes that follow each other in one slot. */
static void add_records(struct mount *it, int file, uint32_t inode, uint32_t count)
{
    uint8_t bytes[NOFS_SLOT_BYTES] = {0};
    for (uint32_t n = 0; n < count; n++) put_record(bytes + RECORD_BYTES * n, &it->nodes.attributes[inode + n].of[file]);
    nofs_add_put(&it->nofs, it->hidden.attributes[file], inode / IN_SLOT, RECORD_BYTES * (inode % IN_SLOT), bytes,
                 RECORD_BYTES * count);
}

static void add_dirty(struct mount *it)
{
    const uint32_t *dirty = it->nodes.dirty, end = kept_inodes(it), all = it->nodes.dirty_count;
    for (uint32_t n = 0, count; n < all; n += count) {
        int file = it->nodes.attributes[dirty[n]].last;
        count = 1;
        while (n + count < all && dirty[n + count] == dirty[n] + count && dirty[n + count] % IN_SLOT &&
               it->nodes.attributes[dirty[n + count]].last == file) count++;
        if (dirty[n] + count <= end) add_records(it, file, dirty[n], count);
    }
}

/* Attributes for which there is no room that is known: they are put where examining finds some. */
static int flush_again(struct mount *it)
{
    nofs_begin(&it->nofs);
    add_dirty(it);
    int answer = nofs_claim(&it->nofs, NULL);
    if (answer == NOFS_ENDED) return answer;
    if (answer) tell("no room for permissions, owners and times (refusal %d)", answer);
    return nofs_flush(&it->nofs);
}

int mount_flush(struct mount *it, int with_attributes)
{
    int with = with_attributes && it->hidden.is_there && it->nodes.dirty_count, is_refused = 0;
    if (!with && !it->nofs.changed) return nofs_watch(&it->nofs);
    nofs_begin(&it->nofs);
    if (with) add_dirty(it);
    nofs_add_flush(&it->nofs);
    int answer = nofs_send(&it->nofs);
    if (answer) return answer;
    for (size_t n = 0; n + 1 < it->nofs.count; n++) is_refused = is_refused || it->nofs.replies[n].answer;
    answer = it->nofs.replies[it->nofs.count - 1].answer;
    if (!answer && is_refused) answer = flush_again(it);
    if (answer) return answer;
    it->nofs.changed = 0;
    it->nodes.flush++;
    if (with) nodes_are_clean(&it->nodes);
    return NOFS_OK;
}
