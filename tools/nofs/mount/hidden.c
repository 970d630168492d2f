/* The hidden folder: removed files that are open, the record of a replace under way, and the attributes.
 *
 * Promise: a removed file that is open can be used until it is closed, and its folder can be removed; what a crash
 * left of it goes at the next mount. */
#include "mount.h"

#include <stdio.h>
#include <string.h>

int is_same(struct nofs_at a, struct nofs_at b) { return a.inode == b.inode && a.generation == b.generation; }

/* What is there under this name, made where it is missing. A crash may have left a file without its size. */
static int ensure(struct mount *it, struct nofs_at folder, const char *name, enum nofs_kind kind, struct nofs_at *at)
{
    struct nofs_found found = {{0, 0}, kind};
    int answer = nofs_look(&it->nofs, folder, name, &found);
    if (answer == NOFS_MISSING || answer == NOFS_LOST_ENTRY)
        answer = nofs_make(&it->nofs, folder, name, kind, &found.at);
    if (!answer && found.kind != kind) answer = NOFS_EXISTS;
    *at = found.at;
    return answer;
}

static int ensure_file(struct mount *it, const char *name, uint64_t size, struct nofs_at *at)
{
    struct nofs_stat stat = {NOFS_FILE, 0, 0};
    int answer = ensure(it, it->hidden.folder, name, NOFS_FILE, at);
    if (!answer) answer = nofs_stat(&it->nofs, *at, &stat);
    if (!answer && stat.size < size) answer = nofs_resize(&it->nofs, *at, size);
    return answer;
}

/* Removed files */

static void spell(char to[16], uint32_t number) { snprintf(to, 16, "o%u", number); }

int hidden_keep(struct mount *it, struct node *node)
{
    char name[16];
    int answer = NOFS_EXISTS;
    if (!it->hidden.is_there) return NOFS_DIRECTORY_FULL;
    while (answer == NOFS_EXISTS) {
        spell(name, ++it->hidden.last);
        answer = nofs_link(&it->nofs, it->hidden.folder, name, node->at);
    }
    if (!answer) node->hidden = it->hidden.last;
    return answer;
}

int hidden_drop(struct mount *it, struct node *node)
{
    char name[16];
    spell(name, node->hidden);
    node->hidden = 0;
    node->gone = 1;
    return nofs_drop(&it->nofs, it->hidden.folder, name);
}

void hidden_let_go(struct mount *it, struct node *node)
{
    int answer = hidden_drop(it, node);
    if (answer && answer != NOFS_ENDED) tell("a removed file was not dropped (refusal %d)", answer);
}

static void drop_removed(struct mount *it, const struct nofs_name *line, void *with)
{
    (void)with;
    if (line->name[0] == 'o') nofs_drop(&it->nofs, it->hidden.folder, line->name);
}

void hidden_sweep(struct mount *it)
{
    if (it->hidden.is_there) each_line(it, it->hidden.folder, drop_removed, NULL);
}

/* Beginning */

/* What the machine refuses, as a block that can't be read, keeps nobody from the rest of the image. */
static int without_hidden(struct mount *it, int refusal)
{
    tell("no hidden folder (refusal %d): permissions, owners and times will not last", refusal);
    it->hidden.is_there = 0;
    return NOFS_OK;
}

int hidden_recover(struct mount *it)
{
    if (!it->hidden.is_there) return NOFS_OK;
    int answer = replace_finish_all(it);
    if (!answer) hidden_sweep(it);
    if (it->nofs.ended) return NOFS_ENDED;
    return answer > 0 ? without_hidden(it, answer) : answer;
}

/* An image that has room for a part of it alone shows nothing of it. */
static void drop_part(struct mount *it)
{
    nofs_drop(&it->nofs, it->hidden.folder, "replace");
    nofs_drop(&it->nofs, it->hidden.folder, "attributes");
    nofs_drop(&it->nofs, it->hidden.folder, "attributes2");
    nofs_drop(&it->nofs, nofs_root, HIDDEN_NAME);
}

int hidden_open(struct mount *it)
{
    struct hidden *hidden = &it->hidden;
    int answer = ensure(it, nofs_root, HIDDEN_NAME, NOFS_DIRECTORY, &hidden->folder);
    if (!answer) answer = ensure_file(it, "attributes", attributes_bytes(it), &hidden->attributes[0]);
    if (!answer) answer = ensure_file(it, "attributes2", attributes_bytes(it), &hidden->attributes[1]);
    if (!answer) answer = ensure_file(it, "replace", 2 * NOFS_SLOT_BYTES, &hidden->replace);
    if (answer < 0) return answer;
    if (answer) {
        without_hidden(it, answer);
        if (answer == NOFS_FULL || answer == NOFS_INODES_FULL || answer == NOFS_DIRECTORY_FULL) drop_part(it);
        return it->nofs.ended ? NOFS_ENDED : NOFS_OK;
    }
    hidden->is_there = 1;
    if ((answer = hidden_recover(it)) || (answer = attributes_load(it))) return answer;
    return it->nofs.changed ? mount_flush(it, 0) : NOFS_OK;
}
