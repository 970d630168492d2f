/* Answers the reading commands of a session from the bytes of an image, by the library of nofs_reader.h, with the lines that the
 * program has for them. The tests compile and run it:
 *
 *     reader_lines IMAGE < session       a line for each `stat PATH`, `list PATH` and `get PATH OFFSET LENGTH`; `?` for another
 *     reader_lines IMAGE scan            the line of a scan
 *     reader_lines IMAGE speed           the processor time of a copy of the image, and of a read of all files, and their bytes
 *     reader_lines IMAGE count           the processor time of a scan
 *
 * The image lies in pages that can only be read, and ends where a page begins that can't: so a write, and a read past its end, ends
 * the program. */
#define _DEFAULT_SOURCE
#include "nofs_reader.h"
#include <stdio.h>
#include <stdlib.h>
#include <string.h>
#include <sys/mman.h>
#include <time.h>
#include <unistd.h>

static const uint8_t *image;
static size_t size;
static struct nofs_reader_numbers numbers;

static int load(const char *path)
{
    FILE *file = fopen(path, "rb");
    if (!file || fseek(file, 0, SEEK_END))
        return 1;
    size = ftell(file);
    size_t page = sysconf(_SC_PAGESIZE), whole = (size + page - 1) / page * page;
    uint8_t *pages = mmap(NULL, whole + page, PROT_READ | PROT_WRITE, MAP_PRIVATE | MAP_ANONYMOUS, -1, 0);
    image = pages + whole - size;
    rewind(file);
    if (pages == MAP_FAILED || fread(pages + whole - size, 1, size, file) != size)
        return 1;
    fclose(file);
    return mprotect(pages + whole, page, PROT_NONE) || (whole && mprotect(pages, whole, PROT_READ));
}

static void refused(uint32_t code)
{
    switch (code) {
    case NOFS_READER_NO_INODE: puts("refused 14 stale"); break;
    case NOFS_READER_NOT_DIRECTORY: puts("refused 5 not a directory"); break;
    case NOFS_READER_IS_DIRECTORY: puts("refused 6 is a directory"); break;
    case NOFS_READER_TOO_LARGE: puts("refused 12 too large"); break;
    case NOFS_READER_BAD_PAGE: puts("refused 18 read fault"); break;
    default: printf("fault %u\n", code);
    }
}

static int is_name(const char *name, size_t length)
{
    if (length < 1 || length > 48 || (length <= 2 && !memcmp(name, "..", length)))
        return 0;
    for (size_t n = 0; n < length; n++)
        if (!name[n] || strchr("\n\r /", name[n]))
            return 0;
    return 1;
}

/* The inode that a path leads to; 0 where it leads to none, and that has been said. */
static uint32_t resolve(const char *path)
{
    if (!strcmp(path, "@"))
        return NOFS_READER_LABEL;
    uint32_t inode = NOFS_READER_ROOT;
    for (const char *name = path + 1; strcmp(path, "/");) {
        size_t length = strcspn(name, "/");
        struct nofs_reader_line line;
        if (!is_name(name, length))
            return puts("refused 8 bad name"), 0;
        uint32_t code = nofs_reader_look(image, size, inode, (const uint8_t *)name, length, &line);
        if (code)
            return refused(code), 0;
        if (line.what == NOFS_READER_NOTHING)
            return puts("refused 1 missing"), 0;
        if (line.what == NOFS_READER_DEAD)
            return printf("refused 2 lost entry %u\n", line.place), 0;
        if (line.what == NOFS_READER_LOST_SLOT)
            return printf("refused 3 lost slot %u\n", line.place / NOFS_READER_SLOT_PLACES), 0;
        inode = line.inode;
        name += length;
        if (!*name++)
            break;
    }
    return inode;
}

static void stat_line(uint32_t inode)
{
    struct nofs_reader_inode it;
    uint32_t code = nofs_reader_stat(image, size, inode, &it);
    if (code)
        refused(code);
    else
        printf("stat %s %llu %u\n", it.kind == NOFS_READER_FILE ? "file" : "dir", (unsigned long long)it.size, it.links);
}

static void list_line(uint32_t directory)
{
    struct nofs_reader_line line;
    struct nofs_reader_inode it;
    uint32_t code = nofs_reader_stat(image, size, directory, &it);
    if (!code && it.kind != NOFS_READER_DIRECTORY)
        code = NOFS_READER_NOT_DIRECTORY;
    if (code)
        return refused(code);
    printf("names");
    for (uint32_t place = 0; place < 1152; place = line.place + 1) {
        code = nofs_reader_next(image, size, directory, place, &line);
        if (code) {
            line.place = place;
            printf(" /unread:%u", place);
        } else if (line.what == NOFS_READER_NOTHING) {
            break;
        } else if (line.what == NOFS_READER_LOST_SLOT) {
            printf(" /lost:%u", line.place / NOFS_READER_SLOT_PLACES);
        } else {
            printf(line.what == NOFS_READER_DEAD ? " /dead:" : " ");
            fwrite(line.name, 1, line.length, stdout);
            printf(line.kind == NOFS_READER_DIRECTORY ? "/" : "");
        }
    }
    puts("");
}

/* The part of a slot from one byte to another; where `what` is 0 it was not read. */
static void part(uint64_t what, const uint8_t *bytes, uint64_t first, uint64_t last)
{
    static const char *const words[] = {"unread", "bytes", "hole", "lost"};
    if (what != NOFS_READER_BYTES) {
        printf(" %s:%llu", words[what], (unsigned long long)(last - first));
        return;
    }
    printf(" bytes:");
    for (uint64_t at = first; at < last; at++)
        printf("%02x", bytes[at]);
}

static void get_line(uint32_t inode, uint64_t offset, uint64_t length)
{
    static uint8_t bytes[5 * NOFS_READER_SLOT_BYTES + 100];
    struct nofs_reader_inode it;
    struct nofs_reader_run run;
    uint32_t code = nofs_reader_stat(image, size, inode, &it);
    if (!code && it.kind == NOFS_READER_DIRECTORY)
        code = NOFS_READER_IS_DIRECTORY;
    if (code)
        return refused(code);
    uint64_t end = offset + length < it.size ? offset + length : it.size;
    uint64_t limit = numbers.version == 1 ? 72 : 4168, slot = offset / 1024;
    if (offset < end && (end + 1023) / 1024 > limit)
        return refused(NOFS_READER_TOO_LARGE);
    printf("got");
    while (offset < end && 1024 * slot < end) {
        code = nofs_reader_get(image, size, inode, slot, bytes, sizeof bytes, &run);
        if (code)
            run = (struct nofs_reader_run){0, 1};
        for (uint64_t n = 0; n < run.slots && 1024 * slot < end; n++, slot++) {
            uint64_t first = offset > 1024 * slot ? offset - 1024 * slot : 0, last = end - 1024 * slot;
            part(run.what, bytes + 1024 * n, first, last < 1024 ? last : 1024);
        }
    }
    puts("");
}

static void answer(char *command)
{
    char *word = strtok(command, " "), *path = strtok(NULL, " "), *offset = strtok(NULL, " "), *length = strtok(NULL, " ");
    int gets = word && !strcmp(word, "get") && length;
    if (!word || !path || !(gets || (!offset && (!strcmp(word, "stat") || !strcmp(word, "list"))))) {
        puts("?");
        return;
    }
    uint32_t inode = resolve(path);
    if (!inode)
        return;
    if (gets)
        get_line(inode, strtoull(offset, NULL, 10), strtoull(length, NULL, 10));
    else if (!strcmp(word, "stat"))
        stat_line(inode);
    else
        list_line(inode);
}

/* What a scan counts, with the line of the program. */
static void count_line(void)
{
    static uint8_t marks[NOFS_READER_MOST_INODES];
    struct nofs_reader_used it;
    uint32_t code = nofs_reader_counts(image, size, marks, numbers.inodes, &it);
    if (code)
        return refused(code);
    printf("inodes used %llu free %llu unchecked 0, ", (unsigned long long)it.used_inodes, (unsigned long long)(it.inodes - it.used_inodes));
    printf("blocks used %llu free %llu unchecked 0\n", (unsigned long long)it.used_blocks, (unsigned long long)(it.blocks - it.used_blocks));
}

static double seconds(void)
{
    return (double)clock() / CLOCKS_PER_SEC;
}

/* Reads each file, and gives the number of bytes that slots had. */
static uint64_t read_all(void)
{
    static uint8_t bytes[64 * NOFS_READER_SLOT_BYTES];
    struct nofs_reader_inode it;
    struct nofs_reader_run run;
    uint64_t total = 0;
    for (uint32_t inode = 1; inode <= numbers.inodes; inode++) {
        if (nofs_reader_stat(image, size, inode, &it) || it.kind != NOFS_READER_FILE)
            continue;
        for (uint64_t slot = 0; 1024 * slot < it.size; slot += run.slots) {
            if (nofs_reader_get(image, size, inode, slot, bytes, sizeof bytes, &run))
                return 0;
            total += run.what == NOFS_READER_BYTES ? 1024 * run.slots : 0;
        }
    }
    return total;
}

/* Kept from the compiler, which would leave out a copy that nobody reads. */
static void *(*volatile copied_by)(void *, const void *, size_t) = memcpy;

/* The least processor time of several copies of the image, and of several reads of it. */
static void speed(void)
{
    uint8_t *copy = malloc(size);
    double copied = 1e9, read = 1e9;
    uint64_t total = 0;
    for (int n = 0; copy && n < 7; n++) {
        double begin = seconds();
        copied_by(copy, image, size);
        double mid = seconds();
        total = read_all();
        double end = seconds();
        copied = mid - begin < copied && n ? mid - begin : copied;
        read = end - mid < read ? end - mid : read;
    }
    printf("copy %.6f read %.6f bytes %llu\n", copied, read, (unsigned long long)total);
    free(copy);
}

int main(int count, char **words)
{
    char *line = NULL;
    size_t room = 0;
    ssize_t length;
    if (count < 2 || load(words[1]))
        return 2;
    uint32_t code = nofs_reader_superblock(image, size, &numbers);
    if (code)
        return refused(code), 4;
    if (count == 3) {
        double begin = seconds();
        if (!strcmp(words[2], "speed"))
            return speed(), 0;
        count_line();
        if (!strcmp(words[2], "count"))
            printf("seconds %.6f\n", seconds() - begin);
        return 0;
    }
    while ((length = getline(&line, &room, stdin)) >= 0) {
        line[strcspn(line, "\n")] = 0;
        answer(line);
    }
    free(line);
    return 0;
}
