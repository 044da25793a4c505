/* Time of the proved attach on two synthetic chips, beside the CRC of the bytes that attaching must checksum alone, and
   beside a plain C attach with zlib that fills the same tables. Plain C judges refusal 9 in two ways: by two nested
   loops over the copies, as the rules word it, and in the sorted copies. */
#include "plain_attach.h"

#include <stdint.h>
#include <stdio.h>
#include <stdlib.h>
#include <string.h>
#include <time.h>

/* crates/bench_attach: a slice is a pointer and then a length; attaching answers a report's grade, or 16 and the
   refusal's number */
uint64_t bench_attach(const uint8_t *slip, size_t slip_len, const uint8_t *image, size_t image_len, uint32_t *pebs,
                      size_t pebs_len, uint32_t *map, size_t map_len, uint32_t *states, size_t states_len);
uint32_t bench_attach_crc(uint32_t state, const uint8_t *bytes, size_t len);

enum { ROUNDS = 60, SPARE = 4, CHIP_VOLUMES = 4, REFUSED = 16 };

#define BEFORE 0xDEADBEEFu

static void stop(const char *why)
{
    printf("%s\n", why);
    exit(1);
}

static void *memory(size_t size)
{
    void *p = malloc(size);
    if (!p)
        stop("no memory");
    return p;
}

/* ---- The runs that attaching checksums ---- */

struct run {
    const uint8_t *bytes;
    size_t len;
};

struct runs {
    struct run *list;
    size_t count, room;
};

static struct runs *noting; /* where they are noted */

static void note(const uint8_t *bytes, size_t len)
{
    struct runs *r = noting;
    if (r->count == r->room) {
        r->room = r->room ? 2 * r->room : 1024;
        r->list = realloc(r->list, r->room * sizeof *r->list);
        if (!r->list)
            stop("no memory");
    }
    r->list[r->count++] = (struct run){ bytes, len };
}

/* ---- The chips ---- */

struct volume {
    const char *name;
    uint8_t type;
    uint32_t reserved, lebs;
};

struct chip {
    const char *name;
    uint32_t peb_size, unit, sub_unit, vid_start, data_start, peb_count;
    int crowded;    /* most LEBs have more than one copy */
    uint32_t blank; /* PEBs that stay blank; what is left is free */
    struct volume volumes[CHIP_VOLUMES];
    uint8_t slip[SLIP];
    uint8_t *image;
    uint32_t order[MOST_PEBS]; /* of the PEBs, by chance */
    uint32_t taken;            /* of them */
    uint64_t sequence, chance;
};

static struct chip large = {
    .name = "large", .peb_size = 131072, .unit = 2048, .sub_unit = 512, .vid_start = 512, .data_start = 2048,
    .peb_count = 1024, .chance = 88172645463325252u,
    .volumes = { { "boot", STATIC, 256, 256 }, { "root", STATIC, 256, 256 }, { "data", DYNAMIC, 400, 390 },
                 { "log", DYNAMIC, 100, 90 } },
};

static struct chip small = {
    .name = "small", .peb_size = 2048, .unit = 512, .sub_unit = 512, .vid_start = 512, .data_start = 1024,
    .peb_count = 4096, .chance = 88172645463325252u, .crowded = 1, .blank = 100,
    .volumes = { { "data", DYNAMIC, 2400, 1200 }, { "log", DYNAMIC, 800, 400 }, { "boot", STATIC, 300, 300 } },
};

static uint64_t by_chance(struct chip *c)
{
    c->chance ^= c->chance << 13;
    c->chance ^= c->chance >> 7;
    c->chance ^= c->chance << 17;
    return c->chance;
}

static void put_slip(struct chip *c)
{
    memcpy(c->slip, "\1\0\4....\2\0\2..\3\0\2..\0\0\0", SLIP);
    put(c->slip + 3, 4, c->peb_size);
    put(c->slip + 10, 2, c->unit);
    put(c->slip + 15, 2, c->sub_unit);
}

/* the next PEB, with an EC header */
static uint8_t *put_ec(struct chip *c)
{
    if (c->taken == c->peb_count)
        stop("the chip is too small for its volumes");
    uint8_t *ec = c->image + (size_t)c->order[c->taken++] * c->peb_size;
    memset(ec, 0, HEADER);
    memcpy(ec, "UBI#\1", 5);
    put(ec + 8, 8, by_chance(c) % 5000);
    put(ec + 16, 4, c->vid_start);
    put(ec + 20, 4, c->data_start);
    put(ec + 24, 4, 0x5EED0001);
    put(ec + HEADER_CRC, 4, plain_crc(ec, HEADER_CRC));
    return ec;
}

/* each header has a sequence of its own */
static void put_vid(struct chip *c, uint8_t *vid, const struct copy *h)
{
    memset(vid, 0, HEADER);
    memcpy(vid, "UBI!\1", 5);
    vid[5] = h->type;
    vid[6] = h->flag;
    vid[7] = h->compatibility;
    put(vid + 8, 4, h->volume);
    put(vid + 12, 4, h->leb);
    put(vid + 20, 4, h->data_size);
    put(vid + 24, 4, h->used_lebs);
    put(vid + 32, 4, h->data_crc);
    put(vid + 40, 8, ++c->sequence);
    put(vid + HEADER_CRC, 4, plain_crc(vid, HEADER_CRC));
}

/* 168 zeroes if the volume is none */
static void put_record(uint8_t *record, const struct volume *v)
{
    memset(record, 0, RECORD);
    if (v) {
        put(record, 4, v->reserved);
        put(record + 4, 4, 1);
        record[12] = v->type;
        put(record + 14, 2, strlen(v->name));
        memcpy(record + 16, v->name, strlen(v->name));
    }
    put(record + RECORD_CRC, 4, plain_crc(record, RECORD_CRC));
}

static void put_layout(struct chip *c, uint32_t leb)
{
    struct copy h = { .volume = LAYOUT, .leb = leb, .type = DYNAMIC, .compatibility = REJECT };
    uint8_t *peb = put_ec(c);
    uint32_t count = plain_record_count(c->peb_size - c->data_start);
    for (uint32_t i = 0; i < count; i++)
        put_record(peb + c->data_start + i * RECORD, i < CHIP_VOLUMES && c->volumes[i].name ? &c->volumes[i] : NULL);
    put_vid(c, peb + c->vid_start, &h);
}

/* a LEB full of data by chance; its CRC is right if nothing is spoilt */
static void put_copy(struct chip *c, struct copy h, uint32_t spoilt)
{
    uint8_t *peb = put_ec(c), *data = peb + c->data_start;
    for (uint32_t i = 0; i < c->peb_size - c->data_start; i += 8)
        put(data + i, 8, by_chance(c));
    if (h.data_size > 0)
        h.data_crc = plain_crc(data, h.data_size) ^ spoilt;
    put_vid(c, peb + c->vid_start, &h);
}

/* a LEB as first written; on a crowded chip mostly with one or two newer copies, one in eight of them spoilt */
static void put_leb(struct chip *c, uint32_t volume, const struct volume *v, uint32_t leb)
{
    uint32_t leb_size = c->peb_size - c->data_start;
    uint32_t count = !c->crowded || leb % 8 == 1 ? 1 : leb % 32 == 0 ? 3 : 2;
    for (uint32_t k = 0; k < count; k++) {
        struct copy h = { .volume = volume, .leb = leb, .type = v->type, .flag = k > 0 };
        if (v->type == STATIC) {
            h.used_lebs = v->lebs;
            h.data_size = leb_size;
        } else if (h.flag)
            h.data_size = c->unit * (1 + by_chance(c) % (leb_size / c->unit));
        put_copy(c, h, h.flag && by_chance(c) % 8 == 0);
    }
}

static void shuffle(struct chip *c)
{
    for (uint32_t i = 0; i < c->peb_count; i++) {
        uint32_t j = by_chance(c) % (i + 1);
        c->order[i] = c->order[j];
        c->order[j] = i;
    }
}

static void make_chip(struct chip *c)
{
    size_t size = (size_t)c->peb_count * c->peb_size;
    c->image = memory(size);
    memset(c->image, 0xFF, size);
    put_slip(c);
    shuffle(c);
    put_layout(c, 0);
    put_layout(c, 1);
    for (uint32_t i = 0; i < CHIP_VOLUMES && c->volumes[i].name; i++)
        for (uint32_t leb = 0; leb < c->volumes[i].lebs; leb++)
            put_leb(c, i, &c->volumes[i], leb);
    while (c->taken + c->blank < c->peb_count)
        put_ec(c);
}

/* ---- What is timed ---- */

struct bench {
    struct chip *chip;
    struct tables proved, plain;
    struct runs runs;
    struct report report; /* the last one of plain C */
};

static void fill(uint32_t *words, size_t count, uint32_t word)
{
    while (count--)
        *words++ = word;
}

static struct tables lend(uint32_t n)
{
    struct tables t = { .pebs_len = 2 * n + SPARE, .map_len = 3 * n + SPARE, .states_len = VOLUMES + SPARE };
    t.pebs = memory(t.pebs_len * sizeof *t.pebs);
    t.map = memory(t.map_len * sizeof *t.map);
    t.states = memory(t.states_len * sizeof *t.states);
    fill(t.pebs, t.pebs_len, BEFORE);
    fill(t.map, t.map_len, BEFORE);
    fill(t.states, t.states_len, BEFORE);
    return t;
}

static void take_back(struct tables *t)
{
    free(t->pebs);
    free(t->map);
    free(t->states);
}

static uint32_t proved_attach_job(struct bench *b)
{
    const struct chip *c = b->chip;
    const struct tables *t = &b->proved;
    return (uint32_t)bench_attach(c->slip, SLIP, c->image, (size_t)c->peb_count * c->peb_size, t->pebs, t->pebs_len,
                                  t->map, t->map_len, t->states, t->states_len);
}

static uint32_t plain_job(struct bench *b, int by_sort)
{
    const struct chip *c = b->chip;
    b->report = plain_attach(c->slip, SLIP, c->image, (size_t)c->peb_count * c->peb_size, &b->plain, by_sort);
    return b->report.refusal ? REFUSED + b->report.refusal : b->report.grade;
}

static uint32_t plain_attach_job(struct bench *b)
{
    return plain_job(b, 0);
}

static uint32_t sorted_attach_job(struct bench *b)
{
    return plain_job(b, 1);
}

/* all checksums in one word, so that none can be left out */
static uint32_t proved_crc_job(struct bench *b)
{
    uint32_t all = 0;
    for (size_t i = 0; i < b->runs.count; i++)
        all = all * 31 + bench_attach_crc(0xFFFFFFFF, b->runs.list[i].bytes, b->runs.list[i].len);
    return all;
}

static uint32_t zlib_job(struct bench *b)
{
    uint32_t all = 0;
    for (size_t i = 0; i < b->runs.count; i++)
        all = all * 31 + plain_crc(b->runs.list[i].bytes, b->runs.list[i].len);
    return all;
}

static double seconds(void)
{
    struct timespec t;
    clock_gettime(CLOCK_MONOTONIC, &t);
    return t.tv_sec + t.tv_nsec * 1e-9;
}

/* the least time so far: the runs that were disturbed do not count */
static void timed(uint32_t (*job)(struct bench *), struct bench *b, double *least, uint32_t *answer)
{
    double start = seconds();
    *answer = job(b);
    double took = seconds() - start;
    if (took < *least)
        *least = took;
}

static int same_words(const char *name, const uint32_t *ours, const uint32_t *theirs, size_t count)
{
    for (size_t i = 0; i < count; i++)
        if (ours[i] != theirs[i]) {
            printf("differ: %s word %zu, proved %u, plain C %u\n", name, i, ours[i], theirs[i]);
            return 0;
        }
    return 1;
}

/* both attach, with the same answer and the same words */
static int same_report(struct bench *b, uint32_t ours, uint32_t theirs)
{
    if (ours != theirs || ours >= REFUSED) {
        printf("%s: proved answers %u, plain C %u\n", ours != theirs ? "differ" : "refused", ours, theirs);
        return 0;
    }
    return same_words("pebs", b->proved.pebs, b->plain.pebs, b->plain.pebs_len) &&
           same_words("map", b->proved.map, b->plain.map, b->plain.map_len) &&
           same_words("states", b->proved.states, b->plain.states, b->plain.states_len);
}

/* all attach alike, and the checksums of all runs are the same */
static int agree(struct bench *b)
{
    uint32_t ours = proved_attach_job(b);
    if (!same_report(b, ours, sorted_attach_job(b)))
        return 0;
    noting = &b->runs;
    plain_noting = note;
    uint32_t theirs = plain_attach_job(b);
    plain_noting = NULL;
    if (!same_report(b, ours, theirs))
        return 0;
    if (proved_crc_job(b) != zlib_job(b)) {
        printf("differ: checksums\n");
        return 0;
    }
    return 1;
}

static void measure(struct bench *b)
{
    double proved = 1e9, proved_crc = 1e9, plain = 1e9, sorted = 1e9, zlib_alone = 1e9;
    uint32_t grade_proved, grade_plain, grade_sorted, sum_proved, sum_zlib;
    size_t bytes = 0;
    for (size_t i = 0; i < b->runs.count; i++)
        bytes += b->runs.list[i].len;
    for (int i = 0; i < ROUNDS; i++) {
        timed(proved_attach_job, b, &proved, &grade_proved);
        timed(proved_crc_job, b, &proved_crc, &sum_proved);
        timed(plain_attach_job, b, &plain, &grade_plain);
        timed(sorted_attach_job, b, &sorted, &grade_sorted);
        timed(zlib_job, b, &zlib_alone, &sum_zlib);
    }
    if (grade_proved != grade_plain || grade_proved != grade_sorted || sum_proved != sum_zlib)
        stop("differ: answers of the last round");
    printf("%s: %u PEBs, entries %u mean %u highest %llu grade %u\n", b->chip->name, b->report.peb_count,
           b->report.entries, b->report.mean, (unsigned long long)b->report.highest, grade_proved);
    printf("  checksummed         %9zu bytes in %zu runs\n", bytes, b->runs.count);
    printf("  proved attach       %9.3f ms\n", proved * 1e3);
    printf("  proved CRC alone    %9.3f ms\n", proved_crc * 1e3);
    printf("  plain C attach      %9.3f ms\n", plain * 1e3);
    printf("  .. 9 by the sort    %9.3f ms\n", sorted * 1e3);
    printf("  zlib alone          %9.3f ms\n", zlib_alone * 1e3);
    printf("  proved attach / proved CRC alone  %6.2f\n", proved / proved_crc);
    printf("  proved attach / plain C attach    %6.2f\n", proved / plain);
    printf("  proved attach / .. 9 by the sort  %6.2f\n", proved / sorted);
}

static int bench_chip(struct chip *c)
{
    make_chip(c);
    struct bench b = { .chip = c, .proved = lend(c->peb_count), .plain = lend(c->peb_count) };
    int same = agree(&b);
    if (same)
        measure(&b);
    take_back(&b.proved);
    take_back(&b.plain);
    free(b.runs.list);
    free(c->image);
    return same;
}

int main(void)
{
    int same = bench_chip(&large) && bench_chip(&small);
    return !same;
}
