/* What both fuzzers share: lent.h says what it is for. */
#include "lent.h"

#include <stdio.h>
#include <stdlib.h>
#include <string.h>
#include <sys/mman.h>
#include <unistd.h>

enum { FEW_PEBS = 4, WORD = sizeof(uint32_t) };

/* ---- Memory ---- */

struct room make_room(size_t size)
{
    size_t page = (size_t)sysconf(_SC_PAGESIZE);
    size = (size + page - 1) / page * page;
    uint8_t *p = mmap(NULL, size + page, PROT_READ | PROT_WRITE, MAP_PRIVATE | MAP_ANONYMOUS, -1, 0);
    if (p == MAP_FAILED || mprotect(p + size, page, PROT_NONE) != 0) {
        perror("lent memory");
        exit(1);
    }
    return (struct room){ p + size, size };
}

void *at_end(const struct room *r, size_t size)
{
    if (size > r->size) {
        fprintf(stderr, "lent memory: %zu bytes asked of %zu\n", size, r->size);
        exit(1);
    }
    return r->end - size;
}

void *copy_to_end(const struct room *r, const void *bytes, size_t size)
{
    void *to = at_end(r, size);
    if (size > 0)
        memcpy(to, bytes, size);
    return to;
}

void differ(const char *what, unsigned long long ours, unsigned long long theirs)
{
    fprintf(stderr, "differ: %s, library %llu, plain C %llu\n", what, ours, theirs);
    abort();
}

/* ---- Lent tables ---- */

struct lent make_lent(void)
{
    size_t most = (3 * MOST_PEBS + SPARE) * WORD;
    return (struct lent){ .rooms = { make_room(most), make_room(most), make_room(most), make_room(most) } };
}

static void fill(uint32_t *words, size_t count)
{
    while (count--)
        *words++ = BEFORE;
}

void lend(struct lent *l, size_t peb_count)
{
    struct tables *t = &l->tables;
    t->pebs_len = 2 * peb_count + SPARE;
    t->map_len = 3 * peb_count + SPARE;
    t->states_len = VOLUMES + SPARE;
    t->pebs = at_end(&l->rooms[0], t->pebs_len * WORD);
    t->map = at_end(&l->rooms[1], t->map_len * WORD);
    t->states = at_end(&l->rooms[2], t->states_len * WORD);
    l->report_len = CHODULJIN_REPORT_WORDS + SPARE;
    l->report = at_end(&l->rooms[3], l->report_len * sizeof *l->report);
    fill(t->pebs, t->pebs_len);
    fill(t->map, t->map_len);
    fill(t->states, t->states_len);
    for (size_t i = 0; i < l->report_len; i++)
        l->report[i] = BEFORE;
}

/* ---- One attaching ---- */

uint32_t library_attach(const struct input *in, const struct lent *l)
{
    const struct tables *t = &l->tables;
    return choduljin_attach(in->slip, in->slip_len, in->image, in->image_len, t->pebs, t->pebs_len, t->map, t->map_len,
                            t->states, t->states_len, l->report, l->report_len);
}

size_t pebs_to_lend(const struct input *in)
{
    struct geometry g;
    if (plain_read_slip(in->slip, in->slip_len, &g) != 0)
        return FEW_PEBS;
    size_t n = in->image_len / g.peb_size;
    return n < FEWEST_PEBS || n > MOST_PEBS || n * g.peb_size != in->image_len ? FEW_PEBS : n;
}

void same_words(const char *what, const uint32_t *ours, const uint32_t *theirs, size_t count)
{
    if (memcmp(ours, theirs, count * sizeof *ours) == 0)
        return;
    for (size_t i = 0; i < count; i++)
        if (ours[i] != theirs[i]) {
            fprintf(stderr, "word %zu: ", i);
            differ(what, ours[i], theirs[i]);
        }
}

void same_tables(const struct lent *library, const struct lent *plain)
{
    const struct tables *ours = &library->tables, *theirs = &plain->tables;
    same_words("pebs", ours->pebs, theirs->pebs, theirs->pebs_len);
    same_words("map", ours->map, theirs->map, theirs->map_len);
    same_words("states", ours->states, theirs->states, theirs->states_len);
}

/* the words that a report of plain C comes to; a refusal has two */
static size_t words_of(const struct report *r, uint64_t *words)
{
    const struct geometry *g = &r->geometry;
    const uint64_t all[CHODULJIN_REPORT_WORDS] = {
        r->refusal,     r->place,      g->peb_size, g->unit,    g->sub_unit, g->vid_start, g->data_start,
        g->leb_size,    r->peb_count,  r->entries,  r->mean,    r->highest,  r->image_seq, r->read_only,
        r->table,       r->copies_mark, r->grade,
    };
    memcpy(words, all, sizeof all);
    return r->refusal ? 2 : CHODULJIN_REPORT_WORDS;
}

static void same_report(const struct report *r, const struct lent *l, uint32_t answer)
{
    uint64_t words[CHODULJIN_REPORT_WORDS];
    size_t count = words_of(r, words);
    if (answer != r->refusal)
        differ("answer", answer, r->refusal);
    for (size_t i = 0; i < l->report_len; i++)
        if (l->report[i] != (i < count ? words[i] : BEFORE)) {
            fprintf(stderr, "word %zu: ", i);
            differ("report", l->report[i], i < count ? words[i] : BEFORE);
        }
}

/* every word that an answer needs was stored, and none that it does not */
static void all_stored(const char *what, const uint32_t *words, size_t needed, size_t len)
{
    for (size_t i = 0; i < len; i++)
        if ((words[i] == BEFORE) != (i >= needed)) {
            fprintf(stderr, "stored or not, word %zu: ", i);
            differ(what, words[i], BEFORE);
        }
}

static void stored_as_needed(const struct report *r, const struct lent *l, size_t n)
{
    if (r->refusal >= 1 && r->refusal <= 4)
        n = 0;
    all_stored("pebs", l->tables.pebs, 2 * n, l->tables.pebs_len);
    all_stored("map", l->tables.map, 3 * n, l->tables.map_len);
    all_stored("states", l->tables.states, n ? VOLUMES : 0, l->tables.states_len);
}

struct report both_attach(const struct input *in, struct lent *library, struct lent *plain, int by_sort)
{
    size_t n = pebs_to_lend(in);
    lend(library, n);
    lend(plain, n);
    struct report r = plain_attach(in->slip, in->slip_len, in->image, in->image_len, &plain->tables, by_sort);
    same_report(&r, library, library_attach(in, library));
    same_tables(library, plain);
    stored_as_needed(&r, library, n);
    return r;
}
