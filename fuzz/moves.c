/* Fuzzing moves: a list of them on one image that attaches, each refused, gone on with to its end, or stopped in a
   step. The beginning, every write and every image must be those of plain C, and after each call demand 3's claim must
   hold: the image attaches, with the table, states and contents that it had at first, and its map is the place book. A
   list ends at a stopped image that does not meet the premise (docs/POWERCUT.md).

   An input is the number of calls (modulo 9), so many calls of 36 bytes, a slip of 20 bytes, and the image. A call:
   0     bit 0, the LEB is that of map entry (volume); bit 1, the target is free PEB (target), both modulo their number
   1     bits 0 and 1: 0 to the end by steps, 1 by some steps and finish, 2 and 3 a stop; bit 2, the step below is
         counted from the last, modulo 4
   2-3   the step stopped in, or how many are run before finish; modulo their number
   4-5   how many bytes of a store are stored, modulo one more than there are; where an erase's set has its edge
   6     which set of bytes an erase erased; bit 3, but those of the headers by bits 20-35
   8-11  volume; 12-15 LEB; 16-19 target
   20-27 a bit for each byte of the old EC header, 28-35 of the old VID header: erased */
#include "chip.h"
#include "lent.h"
#include "plain_move.h"

#include <stdio.h>
#include <stdlib.h>
#include <string.h>

enum { MOST_IMAGE = 1 << 20, MOST_CALLS = 8, CALL = 36, FEWEST_ROOM = 1 + MOST_CALLS * CALL + SLIP + 4096 };
enum { FIRST_MOVE_REFUSAL = 13, LAST_MOVE_REFUSAL = 17, COMPARED_STEPS = 4 };
enum { TO_END, TO_FINISH };

/* ---- What a list has ---- */

static struct room slips, images, torn_images, plans, writes;
static struct lent library, plain, begun;

static struct {
    struct input in;
    uint8_t *image;                        /* the library's */
    uint8_t *model, *began, *first;        /* plain C's: now, before the call, before the list */
    struct report report, first_report;    /* of image and first */
    uint32_t first_map[3 * MOST_PEBS], first_states[VOLUMES];
    uint32_t book[MOST_PEBS];              /* the PEB of each entry of the first map */
    uint64_t *plan;
} l;

static struct {
    unsigned long long lists, refused_lists, calls, refused[LAST_MOVE_REFUSAL + 1], ended, finished, stopped, erases,
        whole, premise[5];
} counts;

static void tell(void)
{
    fprintf(stderr, "lists %llu, images refused %llu; moves %llu: to the end %llu, by finish %llu, stopped %llu",
            counts.lists, counts.refused_lists, counts.calls, counts.ended, counts.finished, counts.stopped);
    fprintf(stderr, " (in an erase %llu, with the copy whole %llu); refused", counts.erases, counts.whole);
    for (int i = FIRST_MOVE_REFUSAL; i <= LAST_MOVE_REFUSAL; i++)
        fprintf(stderr, " %d: %llu", i, counts.refused[i]);
    fprintf(stderr, "; premise's part not met 1: %llu, 2: %llu, 3: %llu, 4: %llu\n", counts.premise[1],
            counts.premise[2], counts.premise[3], counts.premise[4]);
}

int LLVMFuzzerInitialize(int *argc, char ***argv)
{
    (void)argc;
    (void)argv;
    slips = make_room(SLIP);
    images = make_room(MOST_IMAGE);
    torn_images = make_room(MOST_IMAGE);
    plans = make_room(CHODULJIN_PLAN_WORDS * sizeof(uint64_t));
    writes = make_room(CHODULJIN_WRITE_WORDS * sizeof(uint64_t));
    library = make_lent();
    plain = make_lent();
    begun = make_lent();
    l.plan = at_end(&plans, CHODULJIN_PLAN_WORDS * sizeof(uint64_t));
    l.model = malloc(MOST_IMAGE);
    l.began = malloc(MOST_IMAGE);
    l.first = malloc(MOST_IMAGE);
    if (!l.model || !l.began || !l.first)
        exit(1);
    atexit(tell);
    return 0;
}

static void same_image(const char *what, const uint8_t *ours)
{
    if (memcmp(ours, l.model, l.in.image_len) == 0)
        return;
    for (size_t i = 0; i < l.in.image_len; i++)
        if (ours[i] != l.model[i]) {
            fprintf(stderr, "byte %zu of the image: ", i);
            differ(what, ours[i], l.model[i]);
        }
}

/* ---- The claim ---- */

static const uint8_t *content(const uint8_t *image, uint32_t peb, uint32_t *len)
{
    const struct geometry *g = &l.first_report.geometry;
    const uint8_t *at = image + (size_t)peb * g->peb_size;
    struct copy c;
    if (plain_judge_vid(at + g->vid_start, g->leb_size, &c) != GOOD)
        differ("a map entry's header is not good", peb, 0);
    *len = c.type == STATIC ? c.data_size : g->leb_size - c.data_pad;
    return at + g->data_start;
}

/* the records of the table taken, found by the map */
static const uint8_t *taken(const uint8_t *image, const struct report *r, const uint32_t *map)
{
    for (uint32_t k = 0; k < r->entries; k++)
        if (map[3 * k] == LAYOUT && map[3 * k + 1] == r->table)
            return image + (size_t)map[3 * k + 2] * r->geometry.peb_size + r->geometry.data_start;
    differ("the table taken is not in the map", r->table, 0);
}

static void same_lebs(void)
{
    const uint32_t *map = plain.tables.map;
    for (uint32_t k = 0; k < l.report.entries; k++) {
        uint32_t len, first_len;
        if (map[3 * k] != l.first_map[3 * k] || map[3 * k + 1] != l.first_map[3 * k + 1])
            differ("another LEB in the map, entry", k, k);
        if (map[3 * k + 2] != l.book[k])
            differ("the map is not the place book", map[3 * k + 2], l.book[k]);
        const uint8_t *now = content(l.image, map[3 * k + 2], &len);
        const uint8_t *first = content(l.first, l.first_map[3 * k + 2], &first_len);
        if (len != first_len || memcmp(now, first, len) != 0)
            differ("a LEB has another content, entry", k, k);
    }
}

/* both attach the image, and demand 3 is judged on what they say */
static void judge(void)
{
    l.report = both_attach(&l.in, &library, &plain, (int)(counts.calls & 1));
    if (l.report.refusal != 0)
        differ("the image no longer attaches", l.report.refusal, 0);
    if (l.report.table != l.first_report.table || l.report.copies_mark != l.first_report.copies_mark)
        differ("table taken or copies mark", l.report.table, l.first_report.table);
    if (memcmp(taken(l.image, &l.report, plain.tables.map), taken(l.first, &l.first_report, l.first_map),
               plain_record_count(l.report.geometry.leb_size) * RECORD) != 0)
        differ("records", 1, 0);
    same_words("states", plain.tables.states, l.first_states, VOLUMES);
    if (l.report.entries != l.first_report.entries)
        differ("entries", l.report.entries, l.first_report.entries);
    same_lebs();
}

/* ---- The beginning ---- */

static struct move picked(const uint8_t *call)
{
    struct move m = { be32(call + 8), be32(call + 12), be32(call + 16) };
    uint32_t free_pebs = 0, wanted;
    if (call[0] & 1) {
        uint32_t entry = m.volume % l.report.entries;
        m.volume = plain.tables.map[3 * entry];
        m.leb = plain.tables.map[3 * entry + 1];
    }
    for (uint32_t i = 0; i < l.report.peb_count; i++)
        free_pebs += plain.tables.pebs[2 * i] == FREE;
    if ((call[0] & 2) == 0 || free_pebs == 0)
        return m;
    wanted = m.target % free_pebs;
    for (uint32_t i = 0; i < l.report.peb_count; i++)
        if (plain.tables.pebs[2 * i] == FREE && wanted-- == 0)
            m.target = i;
    return m;
}

static void same_plan_word(int word, uint64_t value)
{
    if (l.plan[word] == value)
        return;
    fprintf(stderr, "plan word %d: ", word);
    differ("plan", l.plan[word], value);
}

static void same_plan(const struct plan *p)
{
    const uint8_t *v = p->vid, *e = p->ec;
    const uint64_t wanted[CHODULJIN_PLAN_WORDS] = {
        0, 0, p->geometry.peb_size, p->geometry.unit, p->geometry.sub_unit, p->old, p->target,
        v[4], v[5], v[6], v[7], be32(v + 8), be32(v + 12), be32(v + 20), be32(v + 24), be32(v + 28), be32(v + 32),
        be64(v + 40),
        e[4], be64(e + 8), be32(e + 16), be32(e + 20), be32(e + 24),
        0,
    };
    for (int i = 0; i < CHODULJIN_PLAN_WORDS; i++)
        same_plan_word(i, p->refusal == 0 ? wanted[i] : i == 0 ? p->refusal : i == 1 ? 0 : BEFORE);
}

static struct plan begin(struct move m)
{
    const struct tables *t = &begun.tables;
    struct plan p = plain_begin(l.model, &l.report, &plain.tables, m);
    lend(&begun, l.report.peb_count);
    for (int i = 0; i < CHODULJIN_PLAN_WORDS; i++)
        l.plan[i] = BEFORE;
    uint32_t answer = choduljin_begin(l.in.slip, l.in.slip_len, l.in.image, l.in.image_len, t->pebs, t->pebs_len,
                                      t->map, t->map_len, t->states, t->states_len, m.volume, m.leb, m.target, l.plan,
                                      CHODULJIN_PLAN_WORDS);
    if (answer != p.refusal)
        differ("begin", answer, p.refusal);
    same_plan(&p);
    same_tables(&begun, &plain);
    same_image("begin", l.image);
    return p;
}

/* ---- Steps ---- */

static void same_next_write(const struct write *w)
{
    uint64_t *write = at_end(&writes, CHODULJIN_WRITE_WORDS * sizeof *write);
    uint32_t answer = choduljin_next_write(l.plan, CHODULJIN_PLAN_WORDS, l.image, l.in.image_len, write,
                                           CHODULJIN_WRITE_WORDS);
    if (answer != 0)
        differ("next write", answer, 0);
    if (write[0] != (uint64_t)w->kind)
        differ("next write's kind", write[0], (uint64_t)w->kind);
    if (w->kind != NOTHING && (write[1] != w->at || write[2] != w->len))
        differ("next write's place", write[1], w->at);
}

/* one step of the library on an image; its plan's words are as before, but one step more was run */
static void library_step(uint8_t *image, uint32_t wanted)
{
    uint64_t before[CHODULJIN_PLAN_WORDS];
    memcpy(before, l.plan, sizeof before);
    uint32_t answer = choduljin_step(l.plan, CHODULJIN_PLAN_WORDS, image, l.in.image_len);
    if (answer != wanted)
        differ("step", answer, wanted);
    before[CHODULJIN_PLAN_STEPS] += wanted == CHODULJIN_ON;
    for (int i = 0; i < CHODULJIN_PLAN_WORDS; i++)
        same_plan_word(i, before[i]);
}

/* of a long move only the first and last images are compared whole */
static void whole_step(const struct plan *p, uint32_t run)
{
    struct write w = plain_write(p, l.model, run);
    same_next_write(&w);
    plain_apply(l.model, &w);
    library_step(l.image, CHODULJIN_ON);
    if (run < COMPARED_STEPS || run + COMPARED_STEPS > p->steps)
        same_image("step", l.image);
    else if (memcmp(l.image + w.at, l.model + w.at, w.len) != 0)
        differ("the bytes of a step", run, run);
}

/* none is left: done, and nothing changes */
static void further_steps(const struct plan *p)
{
    struct write none = plain_write(p, l.model, p->steps);
    same_next_write(&none);
    library_step(l.image, 0);
    library_step(l.image, 0);
}

/* the library's finish, after which the plan's words are as before, but all steps were run */
static void library_finish(uint32_t steps)
{
    uint64_t before[CHODULJIN_PLAN_WORDS];
    memcpy(before, l.plan, sizeof before);
    uint32_t answer = choduljin_finish(l.plan, CHODULJIN_PLAN_WORDS, l.image, l.in.image_len);
    if (answer != 0)
        differ("finish", answer, 0);
    before[CHODULJIN_PLAN_STEPS] = steps;
    for (int i = 0; i < CHODULJIN_PLAN_WORDS; i++)
        same_plan_word(i, before[i]);
}

/* a step and a finish after it are done, and change nothing */
static void finish(const struct plan *p, uint32_t run)
{
    for (; run < p->steps; run++) {
        struct write w = plain_write(p, l.model, run);
        plain_apply(l.model, &w);
    }
    library_finish(p->steps);
    same_image("finish", l.image);
    library_step(l.image, 0);
    library_finish(p->steps);
}

/* ---- Stops ---- */

static int header_erased(const uint8_t *bits, size_t at)
{
    return bits[at / 8] >> (at % 8) & 1;
}

/* is this byte of the old block in the set that the erase got to? */
static int is_erased(const uint8_t *call, const struct geometry *g, size_t at)
{
    size_t edge = be16(call + 4) % (g->peb_size + 1);
    if ((call[6] & 8) && at < HEADER)
        return header_erased(call + 20, at);
    if ((call[6] & 8) && at >= g->vid_start && at < g->vid_start + HEADER)
        return header_erased(call + 28, at - g->vid_start);
    switch (call[6] & 7) {
    case 0:
        return at < edge;
    case 1:
        return at >= edge;
    case 2:
        return one_in(2);
    case 3:
        return one_in(16);
    case 4:
        return !one_in(16);
    case 5:
        return at == edge;
    case 6:
        return at != edge;
    default:
        return at >= HEADER;
    }
}

/* bytes of the library's own step, as far as the stop lets it come */
static void cut(const struct plan *p, const struct write *w, const uint8_t *call, const uint8_t *stepped)
{
    size_t len = be16(call + 4) % (w->len + 1);
    if (w->kind == STORE) {
        memcpy(l.image + w->at, stepped + w->at, len);
        memcpy(l.model + w->at, w->bytes, len);
        return;
    }
    chance_from(be64(call + 20));
    for (size_t i = 0; i < w->len; i++)
        if (is_erased(call, &p->geometry, i)) {
            l.image[w->at + i] = stepped[w->at + i];
            l.model[w->at + i] = 0xFF;
        }
}

static void stop_in(const struct plan *p, uint32_t run, const uint8_t *call)
{
    struct write w = plain_write(p, l.model, run);
    uint8_t *stepped = copy_to_end(&torn_images, l.image, l.in.image_len);
    same_next_write(&w);
    library_step(stepped, CHODULJIN_ON);
    cut(p, &w, call, stepped);
    same_image("stopped", l.image);
    plain_apply(l.model, &w);
    same_image("the step stopped in", stepped);
    memcpy(l.model, l.image, l.in.image_len);
    counts.stopped++;
    counts.erases += w.kind == ERASE;
}

/* ---- A call ---- */

static uint32_t stop_step(const struct plan *p, const uint8_t *call)
{
    return call[1] & 4 ? p->steps - 1 - be16(call + 2) % 4 % p->steps : be16(call + 2) % p->steps;
}

static void go_on(const struct plan *p, const uint8_t *call)
{
    int how = call[1] & 3;
    uint32_t last = how == TO_END ? p->steps : stop_step(p, call), run;
    for (run = 0; run < last; run++)
        whole_step(p, run);
    if (how == TO_END)
        further_steps(p);
    else if (how == TO_FINISH)
        finish(p, run);
    else
        stop_in(p, run, call);
    same_image("the call's image", l.image);
    counts.ended += how == TO_END;
    counts.finished += how == TO_FINISH;
}

static void write_book(struct move m)
{
    for (uint32_t k = 0; k < l.first_report.entries; k++)
        if (l.first_map[3 * k] == m.volume && l.first_map[3 * k + 1] == m.leb)
            l.book[k] = m.target;
}

/* what must be true after the move, of its own two blocks */
static void judge_freed(const struct plan *p)
{
    const uint32_t *words = plain.tables.pebs + 2 * p->old;
    if (words[0] != FREE || words[1] != be64(p->ec + 8))
        differ("the old block is not free with its new counter", words[0], words[1]);
}

/* 0 if the list ends here: the premise does not hold of the stopped image */
static int run_call(const uint8_t *call)
{
    struct move m = picked(call);
    int stopped = (call[1] & 3) > TO_FINISH;
    memcpy(l.began, l.model, l.in.image_len);
    struct plan p = begin(m);
    counts.calls++;
    if (p.refusal != 0) {
        counts.refused[p.refusal]++;
        judge();
        return 1;
    }
    go_on(&p, call);
    int failed = stopped ? plain_premise_fails(&p, l.began, l.model) : 0;
    int whole = !stopped || plain_copy_whole(&p, l.began, l.model);
    counts.premise[failed]++;
    counts.whole += stopped && whole;
    if (failed)
        return 0;
    if (whole)
        write_book(m);
    judge();
    if (!stopped)
        judge_freed(&p);
    return 1;
}

static void start(void)
{
    const uint32_t *map = plain.tables.map;
    l.first_report = l.report;
    memcpy(l.first, l.image, l.in.image_len);
    memcpy(l.first_map, map, 3 * l.report.entries * sizeof *map);
    memcpy(l.first_states, plain.tables.states, sizeof l.first_states);
    for (uint32_t k = 0; k < l.report.entries; k++)
        l.book[k] = map[3 * k + 2];
}

int LLVMFuzzerTestOneInput(const uint8_t *data, size_t size)
{
    size_t calls = size > 0 ? data[0] % (MOST_CALLS + 1) : 0, before = 1 + calls * CALL + SLIP;
    if (size < before || size - before > MOST_IMAGE)
        return 0;
    l.in.slip_len = SLIP;
    l.in.slip = copy_to_end(&slips, data + before - SLIP, SLIP);
    l.in.image_len = size - before;
    l.in.image = l.image = copy_to_end(&images, data + before, l.in.image_len);
    memcpy(l.model, l.image, l.in.image_len);
    l.report = both_attach(&l.in, &library, &plain, 0);
    counts.lists++;
    counts.refused_lists += l.report.refusal != 0;
    if (l.report.refusal != 0)
        return 0;
    start();
    for (size_t k = 0; k < calls; k++)
        if (!run_call(data + 1 + k * CALL))
            return 0;
    return 0;
}

/* ---- Inputs ---- */

static void some_call(uint8_t *call)
{
    for (int i = 0; i < CALL; i++)
        call[i] = (uint8_t)chance();
    call[0] = (uint8_t)(one_in(6) ? below(4) : 3);
    if (one_in(4))
        memset(call + 20, one_in(2) ? 0xFF : 0, 8);
    if (one_in(4))
        memset(call + 28, one_in(2) ? 0xFF : 0, 8);
    if ((call[0] & 1) == 0) {
        put(call + 8, 4, one_in(3) ? LAYOUT : below(4));
        put(call + 12, 4, below(4));
    }
    if ((call[0] & 2) == 0)
        put(call + 16, 4, below(13));
}

static void change_call(uint8_t *call)
{
    switch (below(4)) {
    case 0:
        some_call(call);
        return;
    case 1:
        call[1] = (uint8_t)below(8);
        return;
    case 2:
        put(call + 4, 2, one_in(2) ? below(HEADER + 2) : be16(call + 4) + below(3) - 1);
        return;
    default:
        call[below(CALL)] ^= (uint8_t)(1 << below(8));
    }
}

/* puts one call more before the dump, or takes the last away: the input's new size */
static size_t other_number(uint8_t *data, size_t size, size_t calls, size_t room)
{
    uint8_t *end = data + 1 + calls * CALL;
    size_t rest = size - 1 - calls * CALL;
    if (calls > 0 && one_in(3)) {
        data[0] = (uint8_t)(calls - 1);
        memmove(end - CALL, end, rest);
        return size - CALL;
    }
    if (calls == MOST_CALLS || size + CALL > room)
        return size;
    data[0] = (uint8_t)(calls + 1);
    memmove(end + CALL, end, rest);
    some_call(end);
    return size + CALL;
}

static size_t fresh(uint8_t *data, size_t room)
{
    size_t calls = 1 + below(4);
    data[0] = (uint8_t)calls;
    for (size_t k = 0; k < calls; k++)
        some_call(data + 1 + k * CALL);
    return 1 + calls * CALL + chip_make(data + 1 + calls * CALL, room - 1 - calls * CALL);
}

size_t LLVMFuzzerCustomMutator(uint8_t *data, size_t size, size_t room, unsigned int seed)
{
    chance_from(seed);
    if (room < FEWEST_ROOM)
        return size;
    size_t calls = size > 0 ? data[0] % (MOST_CALLS + 1) : 0, before = 1 + calls * CALL;
    if (size < before + SLIP || one_in(100))
        return fresh(data, room);
    data[0] = (uint8_t)calls;
    switch (below(6)) {
    case 0:
        return other_number(data, size, calls, room);
    case 1:
    case 2:
        return before + chip_change(data + before, size - before, room - before, 1);
    default:
        if (calls == 0)
            return other_number(data, size, calls, room);
        change_call(data + 1 + below((uint32_t)calls) * CALL);
        return size;
    }
}
