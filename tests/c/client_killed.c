/* Kills the program of its client again and again: each call answers that it ended, also to a caller that leaves SIGPIPE as it is. */
#include "nofs_client.h"
#include <signal.h>
#include <stdio.h>

int main(int count, char **words)
{
    struct nofs disk; struct nofs_stat stat;
    if (count != 3 || nofs_open(&disk, words[1], words[2])) return 2;
    for (int round = 0; round < 50; round++) {
        if (nofs_stat(&disk, nofs_root, &stat) || kill(disk.child, SIGKILL)) return 3;
        while (nofs_stat(&disk, nofs_root, &stat) != NOFS_ENDED) {}
        if (disk.status != 128 + SIGKILL || nofs_stat(&disk, nofs_root, &stat) != NOFS_ENDED || nofs_again(&disk)) return 4;
    }
    printf("stat %d\n", nofs_stat(&disk, nofs_root, &stat));
    return nofs_close(&disk);
}
