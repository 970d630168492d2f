/* Makes each call of the client once or more, and prints its answer. */
#include "nofs_client.h"
#include <stdio.h>

int main(int count, char **words)
{
    struct nofs disk; struct nofs_at d, f; struct nofs_found found; struct nofs_stat stat; struct nofs_names names;
    enum nofs_value value; uint8_t bytes[NOFS_SLOT_BYTES];
    if (count != 3 || nofs_open(&disk, words[1], words[2])) return 2;
    printf("make %d\n", nofs_make(&disk, nofs_root, "d", NOFS_DIRECTORY, &d) + nofs_make(&disk, d, "f", NOFS_FILE, &f));
    printf("exists %d\n", nofs_make(&disk, d, "f", NOFS_FILE, &f));
    printf("link %d\n", nofs_link(&disk, nofs_root, "l", f));
    printf("put %d\n", nofs_resize(&disk, f, 2048) + nofs_put(&disk, f, 2, 0, "xyz", 3));
    int got = nofs_get(&disk, f, 2, bytes, &value);
    printf("get %d %d %02x%02x%02x\n", got, value, bytes[0], bytes[1], bytes[2]);
    got = nofs_get(&disk, f, 1, bytes, &value);
    printf("hole %d %d\n", got, value);
    got = nofs_stat(&disk, f, &stat);
    printf("stat %d %d %d %d\n", got, stat.kind, (int)stat.size, (int)stat.links);
    printf("rename %d\n", nofs_rename(&disk, d, "f", "m"));
    printf("missing %d\n", nofs_look(&disk, d, "f", &found));
    got = nofs_look(&disk, nofs_root, "d", &found);
    printf("look %d %d\n", got, found.kind);
    printf("not empty %d\n", nofs_drop(&disk, nofs_root, "d"));
    printf("list ");
    for (uint64_t slot = 0; nofs_list(&disk, nofs_root, slot, &names) == NOFS_OK && !names.end; slot = names.slot + 1)
        for (int n = 0; n < names.count; n++) printf("%s ", names.names[n].name);
    printf("\ndrop %d\n", nofs_drop(&disk, nofs_root, "l"));
    printf("bad name %d\n", nofs_look(&disk, nofs_root, "a name of more than forty-eight bytes, and with spaces", &found));
    printf("past %d\n", nofs_put(&disk, f, 9, 0, "x", 1));
    printf("flush %d\n", nofs_flush(&disk));
    printf("status %d\n", nofs_close(&disk));
    return 0;
}
