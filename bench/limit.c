/* The limit: makes the calls of a list on a file that stands, and nothing else.
 *
 *     limit FILE LIST
 *
 * A line of the list is `w OFFSET LENGTH` (one pwrite), `r OFFSET LENGTH` (one pread) or `s 0 0` (one fdatasync). What is written are zeros;
 * a read may end at the end of the file. Status: 0 done, 1 a call failed, 2 wrong words.
 */
#define _FILE_OFFSET_BITS 64
#include <fcntl.h>
#include <stdio.h>
#include <unistd.h>

enum { MOST = 32 * 8192 };

static char bytes[MOST];

/* Makes one call of the list; says whether it was done. */
static int call(int file, char kind, long long offset, long length)
{
    switch (kind) {
    case 'w':
        return pwrite(file, bytes, length, offset) == length;
    case 'r':
        return pread(file, bytes, length, offset) >= 0;
    case 's':
        return fdatasync(file) == 0;
    }
    return 0;
}

int main(int count, char **words)
{
    if (count != 3)
        return 2;
    int file = open(words[1], O_RDWR);
    FILE *list = fopen(words[2], "r");
    if (file < 0 || !list)
        return 1;
    char kind;
    long long offset;
    long length;
    while (fscanf(list, " %c %lld %ld", &kind, &offset, &length) == 3)
        if (length > MOST || !call(file, kind, offset, length))
            return 1;
    return 0;
}
