/* Attaches a flash dump and prints its grade and its map.
 *
 *     attach SLIP DUMP     (the slip's 20 bytes are made by tools/slip PEB-SIZE UNIT SUB-UNIT)
 */
#include <choduljin.h>
#include <errno.h>
#include <stdio.h>
#include <stdlib.h>

#define PEBS 4096
static uint8_t slip[64];
static uint32_t pebs[PEBS * CHODULJIN_PEB_WORDS], map[PEBS * CHODULJIN_ENTRY_WORDS], states[CHODULJIN_STATE_WORDS];

/* All bytes of a file that has at most `most`; their number. */
static size_t all(const char *name, uint8_t *to, size_t most) {
    FILE *f = fopen(name, "rb");
    size_t n = f ? fread(to, 1, most, f) : 0;
    if (f && getc(f) != EOF) errno = EFBIG;
    if (!f || ferror(f) || !feof(f)) exit((perror(name), 3));
    fclose(f);
    return n;
}

int main(int argc, char **argv) {
    size_t most = (size_t)1 << 30; /* no image is longer */
    uint8_t *image = malloc(most);
    uint64_t report[CHODULJIN_REPORT_WORDS];
    if (argc != 3) return fprintf(stderr, "usage: attach SLIP DUMP\n"), 3;
    if (!image) return perror("attach"), 3;
    size_t s = all(argv[1], slip, sizeof slip), n = all(argv[2], image, most);
    uint32_t answer = choduljin_attach(slip, s, image, n, pebs, PEBS * CHODULJIN_PEB_WORDS,
        map, PEBS * CHODULJIN_ENTRY_WORDS, states, CHODULJIN_STATE_WORDS, report, CHODULJIN_REPORT_WORDS);
    if (answer) return printf("refused %u at %u\n", answer, (unsigned)report[CHODULJIN_REPORT_PLACE]), 2;
    printf("grade %u\n", (unsigned)report[CHODULJIN_REPORT_GRADE]);
    for (uint64_t k = 0; k < report[CHODULJIN_REPORT_ENTRIES]; k++) {
        const uint32_t *e = map + k * CHODULJIN_ENTRY_WORDS;
        printf("volume %u LEB %u in PEB %u\n", e[0], e[1], e[2]);
    }
    return ferror(stdout) || fclose(stdout) ? 3 : (int)report[CHODULJIN_REPORT_GRADE];
}
