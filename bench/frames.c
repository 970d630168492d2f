/* Does a work by frames: reads the steps of a list, and the files that it names, and makes them by `nofs PROGRAM wire`.
 *
 *     cc -O2 -I clients -o frames bench/frames.c clients/nofs_client.c && ./frames PROGRAM IMAGE LIST
 *
 * A line of the list is `d FOLDER -` (a folder of the root is made), `n FOLDER NAME` (a file is made in it),
 * `w FOLDER NAME PATH` (the bytes of a file of the host are put from its first byte on), `r FOLDER NAME` (all its bytes
 * are read, and printed), `s - -` (all is made durable). Lines of one kind that follow each other are a batch. Status:
 * 0 done, 1 a step was refused, 2 wrong words. */
#include "nofs_client.h"

#include <stdio.h>
#include <string.h>

enum { MOST = 4096, FILE_MOST = NOFS_FILE_SLOTS * NOFS_SLOT_BYTES };

struct line { char kind, folder[64], name[64], path[512]; };
struct known { char path[128]; struct nofs_at at; uint64_t size; };

static struct line lines[MOST];
static struct known all[MOST];
static size_t known_count;
static uint8_t bytes[FILE_MOST];

/* How many bytes of a slot a file has that has so many from there on. */
static size_t least(uint64_t left)
{
    return left < NOFS_SLOT_BYTES ? left : NOFS_SLOT_BYTES;
}

/* The file or folder with a name; one that is new is noted. */
static struct known *find(const char *folder, const char *name)
{
    char path[sizeof all->path];
    snprintf(path, sizeof path, "%s/%s", folder, name);
    size_t at = 0;
    while (at < known_count && strcmp(all[at].path, path)) at++;
    if (at == known_count && known_count < MOST) strcpy(all[known_count++].path, path);
    return &all[at];
}

static int add_file(struct nofs *disk, struct known *file, const char *path)
{
    FILE *from = fopen(path, "rb");
    if (!from) return 1;
    file->size = fread(bytes, 1, sizeof bytes, from);
    fclose(from);
    for (uint64_t at = 0; at < file->size; at += NOFS_SLOT_BYTES)
        nofs_add_put(disk, file->at, at / NOFS_SLOT_BYTES, 0, bytes + at, least(file->size - at));
    return 0;
}

static int add(struct nofs *disk, const struct line *line)
{
    switch (line->kind) {
    case 'd': nofs_add_make(disk, nofs_root, line->folder, NOFS_DIRECTORY); return 0;
    case 'n': nofs_add_make(disk, find(line->folder, "")->at, line->name, NOFS_FILE); return 0;
    case 'w': return add_file(disk, find(line->folder, line->name), line->path);
    case 'r':
        for (uint64_t at = 0; at < find(line->folder, line->name)->size; at += NOFS_SLOT_BYTES)
            nofs_add_get(disk, find(line->folder, line->name)->at, at / NOFS_SLOT_BYTES);
        return 0;
    case 's': nofs_add_flush(disk); return 0;
    }
    return 1;
}

/* Takes the reply to a step on a slot of a file, which is printed where it was read. */
static int take_slot(const struct nofs_reply *reply, char kind, uint64_t left)
{
    enum nofs_value value;
    const uint8_t *slot;
    if (kind == 'w') return reply->answer == NOFS_OK;
    return nofs_take_value(reply, &value, &slot) == NOFS_OK && fwrite(slot, least(left), 1, stdout);
}

/* Takes the replies to a line's steps, and leads behind them; 0 where one is a refusal. */
static int take(const struct line *line, const struct nofs_reply **replies)
{
    struct known *file = find(line->folder, line->kind == 'd' ? "" : line->name);
    if (line->kind == 'd' || line->kind == 'n') return nofs_take_made((*replies)++, &file->at) == NOFS_OK;
    if (line->kind == 's') return (*replies)++->answer == NOFS_OK;
    for (uint64_t at = 0; at < file->size; at += NOFS_SLOT_BYTES)
        if (!take_slot((*replies)++, line->kind, file->size - at)) return 0;
    return 1;
}

/* The batch that begins with a line; how many lines it has, 0 where it was not done. */
static size_t do_batch(struct nofs *disk, size_t first, size_t count)
{
    size_t end = first;
    nofs_begin(disk);
    for (; end < count && lines[end].kind == lines[first].kind; end++)
        if (add(disk, &lines[end])) return 0;
    if (nofs_claim(disk, NULL) != NOFS_OK) return 0;
    const struct nofs_reply *replies = disk->replies;
    for (size_t at = first; at < end; at++)
        if (!take(&lines[at], &replies)) return 0;
    return end - first;
}

static size_t read_list(FILE *list)
{
    size_t count = 0;
    for (struct line *it = lines; count < MOST; it++, count++) {
        if (fscanf(list, " %c %63s %63s", &it->kind, it->folder, it->name) != 3) break;
        if (it->kind == 'w' && fscanf(list, " %511s", it->path) != 1) return 0;
    }
    return count;
}

int main(int words, char **word)
{
    struct nofs disk;
    FILE *list = words == 4 ? fopen(word[3], "r") : NULL;
    size_t count = list ? read_list(list) : 0, done = 0;
    if (!count || nofs_open(&disk, word[1], word[2])) return 2;
    while (done < count) {
        size_t some = do_batch(&disk, done, count);
        if (!some) return fprintf(stderr, "refused at line %zu\n", done + 1), 1;
        done += some;
    }
    return nofs_close(&disk) ? 1 : 0;
}
