/* The words of the command line, and what --help says. */
#ifndef WORDS_H
#define WORDS_H

enum command { MOUNT_IMAGE, NEW_IMAGE, SHOW_HELP, WRONG_WORDS };

struct words {
    enum command command;
    const char *program;        /* the script `nofs` at the top of the repository, where none is given */
    double flush_seconds;
    const char *image, *folder; /* of a mount */
    const char *blocks, *inodes; /* of a new image */
};

struct words read_words(int count, char **texts);
void print_help(void);

#endif
