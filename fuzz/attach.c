/* Fuzzing attach: the library and plain C attach one image, and must agree in the answer, its place, the report and
   every lent word; the listing must be the one of plain C; tables one word short are refused and left as they were.

   An input is a byte of options, a slip of 20 bytes, and the image. Options: bit 0, plain C judges refusal 9 in the
   sorted copies; bits 1 and 2, which table is one word short; bit 3, the slip has 13 + (bits 4 to 7) bytes, not 20. */
#include "chip.h"
#include "lent.h"
#include "listing.h"

#include <stdio.h>
#include <stdlib.h>
#include <string.h>

enum { MOST_INPUT = 1 << 20, FEWEST_ROOM = 1 + SLIP + 2048, ANSWERS = 13, MOST_CHANGES = 2 };

static struct room slips, images, texts, lengths;
static struct lent library, plain;
static char *plain_text;
static unsigned long long answers[ANSWERS], graded[2], short_ones;

static void tell(void)
{
    fprintf(stderr, "answers:");
    for (int i = 0; i < ANSWERS; i++)
        fprintf(stderr, " %d: %llu", i, answers[i]);
    fprintf(stderr, "; grade 0: %llu, 1: %llu; with a table too short: %llu\n", graded[0], graded[1], short_ones);
}

int LLVMFuzzerInitialize(int *argc, char ***argv)
{
    (void)argc;
    (void)argv;
    slips = make_room(SLIP + 16);
    images = make_room(MOST_INPUT);
    texts = make_room(CHODULJIN_LISTING_MOST);
    lengths = make_room(sizeof(uint64_t));
    library = make_lent();
    plain = make_lent();
    plain_text = malloc(CHODULJIN_LISTING_MOST);
    if (!plain_text)
        exit(1);
    atexit(tell);
    return 0;
}

/* ---- The listing ---- */

static uint32_t list_into(uint8_t *out, size_t len, uint64_t *length)
{
    const struct tables *t = &library.tables;
    return choduljin_listing(library.report, CHODULJIN_REPORT_WORDS, t->pebs, t->pebs_len, t->map, t->map_len,
                             t->states, t->states_len, out, len, length, 1);
}

/* into a buffer that just holds it, and one that is a byte short */
static void same_listing(const struct report *r)
{
    size_t len = plain_listing(plain_text, r, &plain.tables);
    uint8_t *out = at_end(&texts, len);
    uint64_t *length = at_end(&lengths, sizeof *length);
    memset(out, '.', len);
    *length = BEFORE;
    uint32_t answer = list_into(out + 1, len - 1, length);
    if (answer != 4 || *length != BEFORE || out[1] != '.' || memcmp(out + 1, out + 2, len - 2) != 0)
        differ("listing, a byte short", answer, 4);
    answer = list_into(out, len, length);
    if (answer != 0)
        differ("listing", answer, 0);
    if (*length != len || memcmp(out, plain_text, len) != 0) {
        fprintf(stderr, "%.*s---\n%.*s", (int)len, (char *)out, (int)len, plain_text);
        differ("listing's length or text", *length, len);
    }
}

/* ---- Too short ---- */

static void lend_short(struct lent *l, size_t peb_count, int which)
{
    lend(l, peb_count);
    l->tables.pebs_len -= SPARE + (which == 0);
    l->tables.map_len -= SPARE + (which == 1);
    l->tables.states_len -= SPARE + (which == 2);
    l->report_len -= SPARE + (which == 3);
}

/* 4, and nothing changed; or an earlier refusal, which changes the report's first words alone */
static void short_table(const struct input *in, int which)
{
    size_t n = pebs_to_lend(in);
    lend_short(&library, n, which);
    lend_short(&plain, n, which);
    uint32_t answer = library_attach(in, &library);
    struct report r = plain_attach(in->slip, in->slip_len, in->image, in->image_len, &plain.tables, 0);
    uint32_t wanted = which == 3 ? 4 : r.refusal;
    if (answer != wanted || answer < 1 || answer > 4)
        differ("answer, a word short", answer, wanted);
    for (size_t i = 0; i < CHODULJIN_REPORT_WORDS + SPARE; i++) {
        uint64_t word = which == 3 || i > 1 ? BEFORE : i == 0 ? wanted : 0;
        if (library.report[i] != word)
            differ("report, a word short", library.report[i], word);
    }
    lend(&plain, n); /* words as they were before, those beyond too */
    same_tables(&library, &plain);
    short_ones += answer == 4;
}

/* ---- One run ---- */

int LLVMFuzzerTestOneInput(const uint8_t *data, size_t size)
{
    if (size < 1 + SLIP || size > MOST_INPUT)
        return 0;
    uint8_t options = data[0];
    struct input in = { .slip_len = options & 8 ? 13 + (options >> 4) : SLIP, .image_len = size - 1 - SLIP };
    if (in.slip_len > size - 1)
        in.slip_len = size - 1;
    in.slip = copy_to_end(&slips, data + 1, in.slip_len);
    in.image = copy_to_end(&images, data + 1 + SLIP, in.image_len);
    struct report r = both_attach(&in, &library, &plain, options & 1);
    answers[r.refusal]++;
    if (r.refusal == 0)
        graded[r.grade]++;
    same_listing(&r);
    short_table(&in, options >> 1 & 3);
    if (memcmp(in.image, data + 1 + SLIP, in.image_len) != 0 || memcmp(in.slip, data + 1, in.slip_len) != 0)
        differ("the image or the slip was changed", 1, 0);
    return 0;
}

/* ---- Inputs ---- */

size_t LLVMFuzzerCustomMutator(uint8_t *data, size_t size, size_t room, unsigned int seed)
{
    chance_from(seed);
    if (room < FEWEST_ROOM)
        return size;
    if (size < 1 + SLIP || one_in(8))
        data[0] = (uint8_t)(one_in(10) ? chance() : chance() & 7);
    size = size < 1 ? 0 : size - 1;
    return 1 + chip_change(data + 1, size, room - 1, 1 + (int)below(MOST_CHANGES));
}

size_t LLVMFuzzerCustomCrossOver(const uint8_t *first, size_t first_size, const uint8_t *second, size_t second_size,
                                 uint8_t *out, size_t room, unsigned int seed)
{
    chance_from(seed);
    if (first_size > room || first_size < 1 || second_size < 1)
        return 0;
    memcpy(out, first, first_size);
    chip_mix(out + 1, first_size - 1, second + 1, second_size - 1);
    return first_size;
}
