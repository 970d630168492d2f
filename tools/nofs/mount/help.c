/* What --help says. */
#include "words.h"

#include <stdio.h>

static const char words[] =
    "Mounts a NoFS image as a directory, by frames of the program and libfuse.\n"
    "\n"
    "    tools/nofs-mount [--nofs PROGRAM] [--flush SECONDS] IMAGE DIR\n"
    "    tools/nofs-mount [--nofs PROGRAM] --new IMAGE BLOCKS INODES\n"
    "\n"
    "IMAGE is the word that the program takes: a file, or a word such as mirror:BLOCKS:LEAD:OTHER. The first form stays in\n"
    "the foreground until `umount DIR`, or a signal, ends it. The second makes an image of version 2, over what was there.\n"
    "`./nofs --mount ..` is the same. As root, or as a user with fusermount3, who alone sees the directory then.\n"
    "\n"
    "  --nofs PROGRAM     the program (the script `nofs` above tools/)\n"
    "  --flush SECONDS    how long a change may wait to become durable (5)\n";

static const char durable[] =
    "\n"
    "What is durable when. fsync and fdatasync, of any file or directory of the mount, make durable all that was done in it\n"
    "before; so does each write by O_SYNC or O_DSYNC, and msync. Without them a change waits --flush seconds. `umount`\n"
    "returns at once: all is durable when the server has ended with status 0. sync, syncfs and `sync -f` make nothing\n"
    "durable: the kernel does not tell a server of theirs. Permissions, owners and times become durable with fsync, with a\n"
    "replace, after --flush seconds, and at the end.\n"
    "\n"
    "A crash or power cut in between leaves of each slot of 1,024 bytes the old content, the new one, or that it is lost, and\n"
    "of each name that was made, removed or renamed since the last flush the state before or after. Replacing a file, a\n"
    "rename onto a name that is there, is one flush; after a crash and the next mount the name leads to the old file or to\n"
    "the new one, as it was when it was renamed. It waits in a record until then: mount the image before anything else reads\n"
    "it. A rename into another directory may leave both names.\n";

static const char differs[] =
    "\n"
    "What fails, and how: a name above 48 bytes (ENAMETOOLONG), or with a space, a line feed or a carriage return\n"
    "(EINVAL); a file above the format's limit of 4,268,032 bytes, in version 1 73,728 (EFBIG; a write across it is short); a\n"
    "fifth name of a file (EMLINK); the 1,153rd name of a directory, of the root the 1,152nd (ENOSPC); a symbolic link, a\n"
    "pipe, a socket, a device (EPERM); a directory, or a file with four names, renamed into another directory (EXDEV: mv\n"
    "copies then); RENAME_EXCHANGE (EINVAL); O_TMPFILE, extended attributes, lists of access (EOPNOTSUPP); a name `.nofs` in\n"
    "the root (EPERM). `df` says that all is free, and st_blocks counts holes. The time of access moves as with `relatime`,\n"
    "and only where the kernel asks for bytes.\n"
    "\n"
    "A file of which a slot is lost is read up to that slot, and then with EIO; what stands behind is read right. A file\n"
    "above 65,536 bytes ends up to 3,072 bytes earlier while it is open for the first time. Where the program dies, who has a\n"
    "file open gets EIO (fstat: ESTALE), and so does the first rename of a file whose bytes went with it; others go on with\n"
    "what is in the image.\n"
    "\n"
    "The folder `.nofs` of the root, which the mount does not show, has what the format does not keep (permissions, owners\n"
    "and times, by inode and generation), removed files that are open, and the record of a replace. It takes four inodes.\n"
    "Where it has no room, or can't be read, that is told and the mount does without.\n"
    "\n"
    "The server and its program keep to one processor, which the kernel chooses anew each second, of those that the server\n"
    "was started with (taskset): of the two one alone has work at a time.\n"
    "\n"
    "Errors by the refusals of docs/FORMAT.md: \"As a directory\". SIGUSR1: how many requests came, and how many steps and\n"
    "batches went out for them. Status: that of the program; 1 it was refused or not mounted, 2 wrong words, 3 the last flush\n"
    "failed, 7 it could not be compiled.\n";

void print_help(void)
{
    fputs(words, stdout);
    fputs(durable, stdout);
    fputs(differs, stdout);
}
