/* Builds the image of a chip with two volumes: `boot`, static, with a file's content, and `log`, dynamic and empty.
 *
 *     build CONTENT IMAGE     (64 blocks of 128 KiB, pages of 2,048 bytes with sub-pages of 512)
 */
#include <choduljin.h>
#include <errno.h>
#include <stdio.h>
#include <stdlib.h>

#define BLOCKS 64
#define BLOCK 131072
static const uint8_t slip[] = {
    1, 0, 4, 0, 2, 0, 0,  2, 0, 2, 8, 0,  3, 0, 2, 2, 0,        /* bytes of a block, a page and a sub-page */
    16, 0, 14,  0, 0, 0, 8,   0, 0, 0, 1,  2, 0,  'b', 'o', 'o', 't', /* 8 blocks, alignment 1, static, no flags */
    16, 0, 13,  0, 0, 0, 40,  0, 0, 0, 1,  1, 1,  'l', 'o', 'g',      /* 40 blocks, dynamic, autoresize */
    0, 0, 0
};
static uint8_t content[BLOCKS * BLOCK], image[BLOCKS * BLOCK];

/* All bytes of a file that has at most `most`; their number. */
static size_t all(const char *name, uint8_t *to, size_t most) {
    FILE *f = fopen(name, "rb");
    size_t n = f ? fread(to, 1, most, f) : 0;
    if (f && getc(f) != EOF) errno = EFBIG;
    if (!f || ferror(f) || !feof(f)) exit((perror(name), 3));
    fclose(f);
    return n;
}

int main(int argc, char **argv) {
    if (argc != 3) return fprintf(stderr, "usage: build CONTENT IMAGE\n"), 3;
    size_t n = all(argv[1], content, sizeof content);
    uint32_t lengths[] = { (uint32_t)n, 0 };
    uint32_t answer = choduljin_build(slip, sizeof slip, 1, lengths, 2, content, n, image, sizeof image);
    if (answer) return printf("refused %u at 0\n", answer), 2;
    FILE *f = fopen(argv[2], "wb");
    if (!f || fwrite(image, 1, sizeof image, f) != sizeof image || fclose(f)) return perror(argv[2]), 3;
    return 0;
}
