/* Keeps a line in the file `notes` of an image, durably, and prints the names of its root.
 *
 *     cc -o example nofs_example.c nofs_client.c && ./example ../nofs disk.img 'a line' */
#include "nofs_client.h"

#include <stdio.h>
#include <string.h>

/* The file, made where it is not there. */
static int open_notes(struct nofs *disk, struct nofs_at *notes)
{
    struct nofs_found found;
    int answer = nofs_look(disk, nofs_root, "notes", &found);
    if (answer == NOFS_MISSING) return nofs_make(disk, nofs_root, "notes", NOFS_FILE, notes);
    *notes = found.at;
    return answer;
}

static int keep(struct nofs *disk, const char *line)
{
    struct nofs_at notes;
    int answer = open_notes(disk, &notes);
    if (answer == NOFS_OK) answer = nofs_resize(disk, notes, 0);
    if (answer == NOFS_OK) answer = nofs_put(disk, notes, 0, 0, line, strlen(line));
    return answer == NOFS_OK ? nofs_flush(disk) : answer;
}

static int print_names(struct nofs *disk)
{
    struct nofs_names names;
    int answer;
    for (uint64_t slot = 0; (answer = nofs_list(disk, nofs_root, slot, &names)) == NOFS_OK && !names.end; slot = names.slot + 1)
        for (int n = 0; n < names.count; n++) puts(names.names[n].name);
    return answer;
}

int main(int count, char **words)
{
    struct nofs disk;
    if (count != 4 || nofs_open(&disk, words[1], words[2])) return 2;
    int answer = keep(&disk, words[3]);
    if (answer == NOFS_OK) answer = print_names(&disk);
    if (answer != NOFS_OK) fprintf(stderr, "answer %d\n", answer);
    return nofs_close(&disk) || answer != NOFS_OK;
}
