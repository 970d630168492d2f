/* Calls the reader that is installed. */
#include <nofs_reader.h>

int main(void) { uint8_t none[1] = {0}; struct nofs_reader_numbers it; return nofs_reader_superblock(none, 0, &it) != 1; }
