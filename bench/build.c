/* Time of choduljin_build on chips of several shapes, beside plain C that copies the same content to the same places,
   fills the rest with 0xFF and checksums what is static; it makes no header and no table. Plain C has three ways: with
   the proved CRC, each gap filled at once; the same, gaps filled block by block; with zlib's CRC, gaps at once. All
   take turns in one process and write the same memory, malloc's and then large pages. The exit status is 1 if a ratio
   to the first way misses the bar. */
#include "choduljin.h"
#include "plain_attach.h"

#include <stdio.h>
#include <stdlib.h>
#include <string.h>
#include <sys/mman.h>
#include <time.h>

/* crates/bench_crc: a slice is a pointer and a length */
uint32_t bench_crc_update(uint32_t state, const uint8_t *bytes, size_t len);

enum { MOST = 128 << 20, LARGE_PAGE = 2 << 20, ROUNDS = 15, LAYOUT_PEBS = 2, IMAGE_SEQ = 0x5EED0001, BEFORE = 0x5A };
enum { MOST_VOLUMES = 2, SLIP_HEAD = 17, SLIP_FIELD = 17, SLIP_END = 3 };

static const double bar = 1.3;

static _Noreturn void stop(const char *why)
{
    printf("%s\n", why);
    exit(1);
}

/* ---- The chips ---- */

struct shape {
    uint32_t peb_size, unit, sub_unit, peb_count;
};

/* a static volume and a dynamic one share the PEBs, and so much of each is full */
struct filling {
    const char *name;
    uint32_t static_percent, full_percent, alignment;
};

struct volume {
    uint32_t type, reserved, room, length;
};

struct chip {
    struct geometry g;
    struct volume volumes[MOST_VOLUMES];
    uint32_t count; /* of them */
    uint8_t slip[SLIP_HEAD + MOST_VOLUMES * SLIP_FIELD + SLIP_END];
    size_t slip_length, image_length, content_length, static_length;
};

static const struct shape shapes[] = { { 128 << 10, 2048, 512, 1024 }, { 128 << 10, 2048, 2048, 1024 },
                                       { 16 << 10, 512, 512, 4096 } };

static const struct filling fillings[] = {
    { "dynamic, full", 0, 100, 1 },
    { "static, full", 100, 100, 1 },
    { "half static, half full", 50, 50, 1 },
    { "half static, 1 % full", 50, 1, 1 },
    { "half static, full, aligned", 50, 100, 8192 },
};

static uint8_t *content, *image;

/* with its field in the slip, of 3 and 14 bytes, whose name has four */
static void add_volume(struct chip *c, uint32_t type, uint32_t reserved, const struct filling *f)
{
    struct volume *v = &c->volumes[c->count++];
    uint8_t *field = c->slip + c->slip_length;
    uint32_t room = c->g.leb_size - c->g.leb_size % f->alignment;
    *v = (struct volume){ type, reserved, room, (uint32_t)((uint64_t)reserved * room * f->full_percent / 100) };
    memcpy(field, "\20\0\16........\0\0", 13);
    put(field + 3, 4, reserved);
    put(field + 7, 4, f->alignment);
    field[11] = (uint8_t)type;
    memcpy(field + 13, type == STATIC ? "boot" : "data", 4);
    c->slip_length += SLIP_FIELD;
    c->content_length += v->length;
    c->static_length += type == STATIC ? v->length : 0;
}

static struct chip make_chip(const struct shape *s, const struct filling *f)
{
    struct chip c = { .g = { .peb_size = s->peb_size, .unit = s->unit, .sub_unit = s->sub_unit } };
    uint32_t usable = s->peb_count - LAYOUT_PEBS, fixed = usable * f->static_percent / 100;
    if (plain_geometry(&c.g) != 0)
        stop("a shape is outside the rules");
    memcpy(c.slip, "\1\0\4....\2\0\2..\3\0\2..", SLIP_HEAD);
    put(c.slip + 3, 4, s->peb_size);
    put(c.slip + 10, 2, s->unit);
    put(c.slip + 15, 2, s->sub_unit);
    c.slip_length = SLIP_HEAD;
    if (fixed > 0)
        add_volume(&c, STATIC, fixed, f);
    if (fixed < usable)
        add_volume(&c, DYNAMIC, usable - fixed, f);
    c.slip_length += SLIP_END; /* 0 already */
    c.image_length = (size_t)s->peb_size * s->peb_count;
    return c;
}

/* ---- What is timed ---- */

static uint32_t proved_crc(const uint8_t *bytes, size_t len)
{
    return bench_crc_update(0xFFFFFFFF, bytes, len);
}

static void build(const struct chip *c)
{
    uint32_t lengths[MOST_VOLUMES];
    for (uint32_t i = 0; i < c->count; i++)
        lengths[i] = c->volumes[i].length;
    uint32_t answer = choduljin_build(c->slip, c->slip_length, IMAGE_SEQ, lengths, c->count, content,
                                      c->content_length, image, c->image_length);
    if (answer != 0)
        stop("choduljin_build refuses a chip");
}

/* 0xFF, in pieces that end where a multiple of `piece` is */
static void fill_gap(size_t from, size_t end, size_t piece)
{
    for (size_t n; from < end; from += n) {
        n = piece - from % piece;
        if (n > end - from)
            n = end - from;
        memset(image + from, 0xFF, n);
    }
}

/* One pass, so that a LEB is copied while it is in the caches. All checksums are in the answer, so that none can be
   left out. */
static uint32_t plain(const struct chip *c, uint32_t (*crc)(const uint8_t *, size_t), size_t piece)
{
    const uint8_t *from = content;
    size_t filled = 0, start = LAYOUT_PEBS * (size_t)c->g.peb_size + c->g.data_start;
    uint32_t all = 0;
    for (uint32_t i = 0; i < c->count; i++) {
        const struct volume *v = &c->volumes[i];
        for (size_t left = v->length, n; left > 0; left -= n) {
            n = left < v->room ? left : v->room;
            if (v->type == STATIC)
                all = all * 31 + crc(from, n);
            fill_gap(filled, start, piece);
            memcpy(image + start, from, n);
            filled = start + n;
            start += c->g.peb_size;
            from += n;
        }
    }
    fill_gap(filled, c->image_length, piece);
    return all;
}

/* the library keeps its checksums in the headers */
static uint32_t build_job(const struct chip *c)
{
    build(c);
    return 0;
}

static uint32_t plain_job(const struct chip *c)
{
    return plain(c, proved_crc, c->image_length);
}

static uint32_t blocks_job(const struct chip *c)
{
    return plain(c, proved_crc, c->g.peb_size);
}

static uint32_t zlib_job(const struct chip *c)
{
    return plain(c, plain_crc, c->image_length);
}

enum { BUILD, PLAIN, BLOCKS, ZLIB, JOBS };

static uint32_t (*const jobs[JOBS])(const struct chip *) = { build_job, plain_job, blocks_job, zlib_job };

/* ---- Are the images the same? ---- */

/* those in the headers of a built image, as plain() sums them up */
static uint32_t built_checksums(const struct chip *c)
{
    uint32_t all = 0;
    const uint8_t *vid = image + LAYOUT_PEBS * (size_t)c->g.peb_size + c->g.vid_start;
    for (uint32_t i = 0; i < c->count; i++)
        for (size_t at = 0; at < c->volumes[i].length; at += c->volumes[i].room, vid += c->g.peb_size)
            if (c->volumes[i].type == STATIC)
                all = all * 31 + be32(vid + 32);
    return all;
}

/* headers and table, which the plain image has not */
static void blot_out(const struct chip *c)
{
    for (size_t at = 0; at < c->image_length; at += c->g.peb_size) {
        memset(image + at, 0xFF, HEADER);
        memset(image + at + c->g.vid_start, 0xFF, HEADER);
        if (at < LAYOUT_PEBS * (size_t)c->g.peb_size)
            memset(image + at + c->g.data_start, 0xFF, plain_record_count(c->g.leb_size) * RECORD);
    }
}

static void require_grade_0(const struct chip *c)
{
    static uint32_t pebs[2 * MOST_PEBS], map[3 * MOST_PEBS], states[VOLUMES];
    struct tables t = { pebs, map, states, 2 * MOST_PEBS, 3 * MOST_PEBS, VOLUMES };
    uint8_t slip[SLIP] = { 0 };
    memcpy(slip, c->slip, SLIP_HEAD);
    struct report r = plain_attach(slip, SLIP, image, c->image_length, &t, 1);
    if (r.refusal != 0 || r.grade != 0)
        stop("a built image does not attach with grade 0");
}

/* no time is worth anything where the images differ */
static void require_same(const struct chip *c)
{
    uint8_t *built = malloc(c->image_length);
    if (!built)
        stop("no memory");
    memset(image, BEFORE, c->image_length);
    build(c);
    require_grade_0(c);
    uint32_t checksums = built_checksums(c);
    blot_out(c);
    memcpy(built, image, c->image_length);
    for (int job = PLAIN; job < JOBS; job++) {
        memset(image, BEFORE, c->image_length);
        if (jobs[job](c) != checksums)
            stop("differ: checksums");
        if (memcmp(built, image, c->image_length) != 0)
            stop("differ: images");
    }
    free(built);
}

/* ---- Rounds ---- */

static double seconds(void)
{
    struct timespec t;
    clock_gettime(CLOCK_MONOTONIC, &t);
    return t.tv_sec + t.tv_nsec * 1e-9;
}

static int by_size(const void *a, const void *b)
{
    double x = *(const double *)a, y = *(const double *)b;
    return (x > y) - (x < y);
}

/* they are sorted */
static double median(double *numbers)
{
    qsort(numbers, ROUNDS, sizeof *numbers, by_size);
    return numbers[ROUNDS / 2];
}

/* milliseconds of each job; they are the first of a round in turn */
static void take_turns(const struct chip *c, double took[JOBS][ROUNDS])
{
    uint32_t sums[JOBS] = { 0 };
    for (int i = 0; i < ROUNDS; i++)
        for (int k = 0; k < JOBS; k++) {
            int job = (i + k) % JOBS;
            double start = seconds();
            sums[job] += jobs[job](c);
            took[job][i] = (seconds() - start) * 1e3;
        }
    if (sums[PLAIN] != sums[ZLIB] || sums[PLAIN] != sums[BLOCKS])
        stop("differ: checksums of a round");
}

/* whether the bar is met */
static int measure(const struct chip *c, const char *name)
{
    double took[JOBS][ROUNDS], ratio[JOBS][ROUNDS], found[JOBS];
    take_turns(c, took);
    for (int job = PLAIN; job < JOBS; job++) {
        for (int i = 0; i < ROUNDS; i++)
            ratio[job][i] = took[BUILD][i] / took[job][i];
        found[job] = median(ratio[job]);
    }
    printf("  %-26s %6.1f %6.1f ", name, c->content_length / 1e6, c->static_length / 1e6);
    for (int job = 0; job < JOBS; job++)
        printf(" %6.2f", median(took[job]));
    printf("   %.2f (%.2f to %.2f)   %.2f   %.2f\n", found[PLAIN], ratio[PLAIN][0], ratio[PLAIN][ROUNDS - 1],
           found[BLOCKS], found[ZLIB]);
    return found[PLAIN] <= bar;
}

static int measure_shape(const struct shape *s)
{
    int missed = 0;
    printf("%u PEBs of %u KiB, unit %u, sub-unit %u\n", s->peb_count, s->peb_size >> 10, s->unit, s->sub_unit);
    printf("  %-26s %6s %6s  %6s %6s %6s %6s   %-19s %6s %6s\n", "", "MB", "static", "build", "plain", "blocks", "zlib",
           "build / plain", "blocks", "zlib");
    for (size_t i = 0; i < sizeof fillings / sizeof *fillings; i++) {
        struct chip c = make_chip(s, &fillings[i]);
        require_same(&c);
        missed += !measure(&c, fillings[i].name);
    }
    return missed;
}

static uint8_t *memory(int large)
{
    uint8_t *p = large ? aligned_alloc(LARGE_PAGE, MOST) : malloc(MOST);
    if (!p)
        stop("no memory");
    if (large)
        madvise(p, MOST, MADV_HUGEPAGE);
    return p;
}

/* bytes by chance */
static void fill_content(void)
{
    uint64_t x = 88172645463325252u;
    for (size_t i = 0; i < MOST; i += sizeof x) {
        x ^= x << 13;
        x ^= x >> 7;
        x ^= x << 17;
        memcpy(content + i, &x, sizeof x);
    }
}

static int measure_in(int large)
{
    int missed = 0;
    content = memory(large);
    image = memory(large);
    fill_content();
    printf("building, in %s; milliseconds, %d rounds\n", large ? "large pages" : "malloc's memory", ROUNDS);
    for (size_t i = 0; i < sizeof shapes / sizeof *shapes; i++)
        missed += measure_shape(&shapes[i]);
    free(content);
    free(image);
    return missed;
}

int main(void)
{
    int missed = measure_in(0) + measure_in(1);
    printf("bar: build / plain of at most %.2f: %s\n", bar, missed ? "MISSED" : "met");
    return missed != 0;
}
