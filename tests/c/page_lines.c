/* Copies the file of a name of the root by the lines of README.md, which page_lines.h has; without a name it lists the image. */
#include "nofs_reader.h"
#include <stdio.h>
#include <string.h>

#include "page_lines.h"

static void tree(const uint8_t *image, size_t size, uint32_t directory, int depth)
{
    struct nofs_reader_line line = {0};
    for (uint32_t at = 0; !nofs_reader_next(image, size, directory, at, &line) && line.what; at = line.place + 1) {
        printf("%*s%.*s%s\n", 2 * depth, "", (int)line.length, line.name, line.what == NOFS_READER_ENTRY ? "" : " (lost)");
        if (line.kind == NOFS_READER_DIRECTORY) tree(image, size, line.inode, depth + 1);
    }
}

int main(int count, char **words)
{
    static uint8_t image[300 * 1056];
    struct nofs_reader_line line;
    FILE *file = fopen(words[1], "rb");
    size_t size = fread(image, 1, sizeof image, file);
    if (count == 2)
        return tree(image, size, NOFS_READER_ROOT, 0), 0;
    return nofs_reader_look(image, size, NOFS_READER_ROOT, (uint8_t *)words[2], strlen(words[2]), &line)
        || line.what != NOFS_READER_ENTRY || copy(image, size, line.inode, stdout);
}
