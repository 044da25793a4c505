/* The jobs that bench/tool times. Those of a whole dump are processes of their own, to stand beside `ubibench list`;
   with the word `large` before them they hold it in large pages, as ubibench does, else in malloc's:

     read FILE                                  the file into memory, and nothing else
     crc FILE RUNS                              and zlib's CRC of the runs that attaching checksums
     plain FILE PEB_SIZE UNIT SUB_UNIT          and attached by plain C
     library FILE PEB_SIZE UNIT SUB_UNIT        and attached by the library, and its listing printed
     runs FILE PEB_SIZE UNIT SUB_UNIT           the runs, for crc: pairs of 64-bit words, first byte and length

   The others take turns in one process, and print a line of microseconds for each round:

     attach FILE PEB_SIZE UNIT SUB_UNIT ROUNDS  by the library; by plain C; the runs' CRC by zlib
     move FILE PEB_SIZE UNIT SUB_UNIT VOLUME LEB TARGET ROUNDS
                                                attach; begin; all steps; memcpy of a block */
#include "choduljin.h"
#include "plain_attach.h"

#include <errno.h>
#include <fcntl.h>
#include <stdio.h>
#include <stdlib.h>
#include <string.h>
#include <sys/mman.h>
#include <sys/stat.h>
#include <time.h>
#include <unistd.h>

enum { LARGE_PAGE = 2 << 20, MICROSECONDS = 1000000 };

static _Noreturn void stop(const char *why)
{
    perror(why);
    exit(1);
}

static _Noreturn void differ(const char *what, unsigned long long ours, unsigned long long theirs)
{
    fprintf(stderr, "differ: %s, library %llu, plain C %llu\n", what, ours, theirs);
    exit(1);
}

static _Noreturn void refused(const char *who, unsigned long long number, unsigned long long place)
{
    fprintf(stderr, "%s: refused %llu at %llu\n", who, number, place);
    exit(1);
}

static int in_large_pages;

static void *memory(size_t size)
{
    size_t whole = (size + LARGE_PAGE) / LARGE_PAGE * LARGE_PAGE;
    void *p = in_large_pages ? aligned_alloc(LARGE_PAGE, whole) : malloc(size);
    if (!p)
        stop("memory");
    if (in_large_pages)
        madvise(p, whole, MADV_HUGEPAGE);
    return p;
}

static double seconds(void)
{
    struct timespec t;
    clock_gettime(CLOCK_MONOTONIC, &t);
    return t.tv_sec + t.tv_nsec * 1e-9;
}

/* ---- A dump in memory ---- */

struct dump {
    uint8_t *bytes;
    size_t size;
    uint8_t slip[SLIP];
};

static struct dump read_file(const char *path)
{
    struct dump d = { 0 };
    struct stat info;
    int file = open(path, O_RDONLY);
    if (file < 0 || fstat(file, &info) != 0)
        stop(path);
    d.bytes = memory((size_t)info.st_size);
    while (d.size < (size_t)info.st_size) {
        ssize_t got = read(file, d.bytes + d.size, (size_t)info.st_size - d.size);
        if (got == 0)
            errno = EIO;
        if (got <= 0)
            stop(path);
        d.size += (size_t)got;
    }
    close(file);
    return d;
}

static uint32_t number(const char *word)
{
    return (uint32_t)strtoul(word, NULL, 10);
}

/* FILE PEB_SIZE UNIT SUB_UNIT */
static struct dump read_chip(char **words)
{
    struct dump d = read_file(words[0]);
    memcpy(d.slip, "\1\0\4....\2\0\2..\3\0\2..\0\0\0", SLIP);
    put(d.slip + 3, 4, number(words[1]));
    put(d.slip + 10, 2, number(words[2]));
    put(d.slip + 15, 2, number(words[3]));
    return d;
}

/* ---- Attaching, both ways ---- */

struct lent {
    uint32_t pebs[2 * MOST_PEBS], map[3 * MOST_PEBS], states[VOLUMES];
};

static struct lent ours, theirs;
static uint64_t report[CHODULJIN_REPORT_WORDS];

static void library_attach(const struct dump *d)
{
    uint32_t answer = choduljin_attach(d->slip, SLIP, d->bytes, d->size, ours.pebs, 2 * MOST_PEBS, ours.map,
                                       3 * MOST_PEBS, ours.states, VOLUMES, report, CHODULJIN_REPORT_WORDS);
    if (answer != 0)
        refused("library", answer, report[CHODULJIN_REPORT_PLACE]);
}

/* with refusal 9 judged in the sorted copies, which is the faster way */
static struct report plain(const struct dump *d)
{
    struct tables t = { theirs.pebs, theirs.map, theirs.states, 2 * MOST_PEBS, 3 * MOST_PEBS, VOLUMES };
    struct report r = plain_attach(d->slip, SLIP, d->bytes, d->size, &t, 1);
    if (r.refusal != 0)
        refused("plain C", r.refusal, r.place);
    return r;
}

static void same_words(const char *name, const uint32_t *a, const uint32_t *b, size_t count)
{
    for (size_t i = 0; i < count; i++)
        if (a[i] != b[i])
            differ(name, a[i], b[i]);
}

/* no time is worth anything where the answers differ */
static void require_same(const struct dump *d)
{
    library_attach(d);
    struct report r = plain(d);
    uint64_t plain_words[] = { r.peb_count, r.entries, r.mean, r.highest, r.image_seq, r.read_only, r.table,
                               r.copies_mark, r.grade };
    for (size_t i = 0; i < sizeof plain_words / sizeof *plain_words; i++)
        if (report[CHODULJIN_REPORT_PEB_COUNT + i] != plain_words[i])
            differ("a word of the report", report[CHODULJIN_REPORT_PEB_COUNT + i], plain_words[i]);
    same_words("a word of the PEBs", ours.pebs, theirs.pebs, 2 * r.peb_count);
    same_words("a word of the map", ours.map, theirs.map, 3 * r.peb_count);
    same_words("a word of the states", ours.states, theirs.states, VOLUMES);
}

/* ---- The runs that attaching checksums ---- */

struct run {
    uint64_t from, length;
};

struct runs {
    struct run *list;
    size_t count, room;
};

static struct runs noted;
static const uint8_t *noted_in;

static void note(const uint8_t *bytes, size_t length)
{
    if (noted.count == noted.room) {
        noted.room = noted.room ? 2 * noted.room : 1024;
        noted.list = realloc(noted.list, noted.room * sizeof *noted.list);
        if (!noted.list)
            stop("memory");
    }
    noted.list[noted.count++] = (struct run){ (uint64_t)(bytes - noted_in), length };
}

static void note_runs(const struct dump *d)
{
    noted_in = d->bytes;
    plain_noting = note;
    plain(d);
    plain_noting = NULL;
}

/* all checksums in one word, so that none can be left out */
static uint32_t crc_of_runs(const struct dump *d)
{
    uint32_t all = 0;
    for (size_t i = 0; i < noted.count; i++)
        all = all * 31 + plain_crc(d->bytes + noted.list[i].from, noted.list[i].length);
    return all;
}

/* ---- Processes of their own ---- */

static void job_read(char **words)
{
    read_file(words[0]);
}

static void job_crc(char **words)
{
    struct dump d = read_file(words[0]), runs = read_file(words[1]);
    noted.list = (struct run *)runs.bytes;
    noted.count = runs.size / sizeof *noted.list;
    printf("%u\n", crc_of_runs(&d));
}

static void job_plain(char **words)
{
    struct dump d = read_chip(words);
    printf("%u\n", plain(&d).grade);
}

static void job_library(char **words)
{
    static uint8_t text[CHODULJIN_LISTING_MOST];
    struct dump d = read_chip(words);
    uint64_t length;
    library_attach(&d);
    uint32_t answer = choduljin_listing(report, CHODULJIN_REPORT_WORDS, ours.pebs, 2 * MOST_PEBS, ours.map,
                                        3 * MOST_PEBS, ours.states, VOLUMES, text, sizeof text, &length, 1);
    if (answer != 0)
        refused("listing", answer, 0);
    if (fwrite(text, 1, length, stdout) != length)
        stop("the listing");
}

static void job_runs(char **words)
{
    struct dump d = read_chip(words);
    require_same(&d);
    note_runs(&d);
    if (fwrite(noted.list, sizeof *noted.list, noted.count, stdout) != noted.count)
        stop("the runs");
}

/* ---- Jobs that take turns in one process ---- */

static double since(double *start)
{
    double now = seconds(), took = now - *start;
    *start = now;
    return took * MICROSECONDS;
}

static void job_attach(char **words)
{
    struct dump d = read_chip(words);
    uint32_t all = 0;
    require_same(&d);
    note_runs(&d);
    for (uint32_t rounds = number(words[4]); rounds > 0; rounds--) {
        double start = seconds();
        library_attach(&d);
        double by_library = since(&start);
        plain(&d);
        double by_plain = since(&start);
        all ^= crc_of_runs(&d);
        printf("%.3f %.3f %.3f\n", by_library, by_plain, since(&start));
    }
    if (all == 1)
        stop("the checksums are used");
}

/* a move, and the PEB that it leaves free */
static uint32_t move(struct dump *d, uint32_t volume, uint32_t leb, uint32_t target, double took[2])
{
    uint64_t plan[CHODULJIN_PLAN_WORDS];
    double start = seconds();
    uint32_t answer = choduljin_begin(d->slip, SLIP, d->bytes, d->size, ours.pebs, 2 * MOST_PEBS, ours.map,
                                      3 * MOST_PEBS, ours.states, VOLUMES, volume, leb, target, plan,
                                      CHODULJIN_PLAN_WORDS);
    if (answer != 0)
        refused("begin", answer, plan[CHODULJIN_PLAN_PLACE]);
    took[0] = since(&start);
    do
        answer = choduljin_step(plan, CHODULJIN_PLAN_WORDS, d->bytes, d->size);
    while (answer == CHODULJIN_ON);
    took[1] = since(&start);
    if (answer != 0)
        refused("step", answer, 0);
    return (uint32_t)plan[CHODULJIN_PLAN_OLD];
}

/* from the caches, as the steps find the block after its beginning */
static double copy_time(uint8_t *to, const uint8_t *block, size_t size)
{
    memcpy(to, block, size);
    double start = seconds();
    memcpy(to, block, size);
    double took = since(&start);
    if (memcmp(to, block, size) != 0)
        stop("memcpy");
    return took;
}

/* there and back again */
static void job_move(char **words)
{
    struct dump d = read_chip(words);
    size_t peb_size = number(words[1]);
    uint32_t volume = number(words[4]), leb = number(words[5]), target = number(words[6]);
    uint8_t *block = memory(peb_size);
    require_same(&d);
    for (uint32_t rounds = number(words[7]); rounds > 0; rounds--) {
        double took[2], start = seconds();
        library_attach(&d);
        double attach = since(&start);
        uint32_t freed = move(&d, volume, leb, target, took);
        double copy = copy_time(block, d.bytes + target * peb_size, peb_size);
        printf("%.3f %.3f %.3f %.3f\n", attach, took[0], took[1], copy);
        target = freed;
    }
}

static const struct job {
    const char *name;
    int words;
    void (*run)(char **words);
} jobs[] = { { "read", 1, job_read }, { "crc", 2, job_crc }, { "plain", 4, job_plain }, { "library", 4, job_library },
             { "runs", 4, job_runs }, { "attach", 5, job_attach }, { "move", 8, job_move } };

int main(int count, char **words)
{
    if (count > 1 && strcmp(words[1], "large") == 0) {
        in_large_pages = 1;
        count--;
        words++;
    }
    for (size_t i = 0; i < sizeof jobs / sizeof *jobs; i++)
        if (count == jobs[i].words + 2 && strcmp(words[1], jobs[i].name) == 0) {
            jobs[i].run(words + 2);
            return fflush(stdout) != 0;
        }
    fprintf(stderr, "bench/tool runs this program\n");
    return 2;
}
