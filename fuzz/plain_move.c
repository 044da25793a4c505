/* Moving a block in plain C: plain_move.h says what it is for. */
#include "plain_move.h"

#include <string.h>

static const uint8_t *block(const struct geometry *g, const uint8_t *image, uint32_t peb)
{
    return image + (size_t)peb * g->peb_size;
}

static const uint8_t *data_of(const struct geometry *g, const uint8_t *image, uint32_t peb)
{
    return block(g, image, peb) + g->data_start;
}

/* ---- The beginning ---- */

/* a good VID header with compatibility 1 is one of an internal volume */
static int deleted_stands(const uint8_t *image, const struct report *r)
{
    const struct geometry *g = &r->geometry;
    struct copy c;
    for (uint32_t peb = 0; peb < r->peb_count; peb++)
        if (plain_judge_vid(block(g, image, peb) + g->vid_start, g->leb_size, &c) == GOOD && c.compatibility == DELETE)
            return 1;
    return 0;
}

static uint32_t place_of(const struct report *r, const struct tables *t, uint32_t volume, uint32_t leb)
{
    for (uint32_t k = 0; k < r->entries; k++)
        if (t->map[3 * k] == volume && t->map[3 * k + 1] == leb)
            return t->map[3 * k + 2];
    return NONE;
}

static int is_right(const struct geometry *g, const uint8_t *image, uint32_t peb, const struct copy *c)
{
    if (c->flag == 0 && c->type == DYNAMIC)
        return 1;
    return plain_crc(data_of(g, image, peb), c->data_size) == c->data_crc;
}

static int target_fits(const uint8_t *image, const struct report *r, const struct tables *t, uint32_t target)
{
    if (target >= r->peb_count || t->pebs[2 * target] != FREE)
        return 0;
    const uint8_t *peb = block(&r->geometry, image, target);
    for (uint32_t i = HEADER; i < r->geometry.peb_size; i++)
        if (peb[i] != 0xFF)
            return 0;
    return 1;
}

/* the data that a dynamic LEB's new copy has: up to the last byte that is not 0xFF, in whole units */
static uint32_t dynamic_size(const struct geometry *g, const uint8_t *data, uint32_t pad)
{
    uint32_t len = g->leb_size - pad;
    while (len > 0 && data[len - 1] == 0xFF)
        len--;
    return (len + g->unit - 1) / g->unit * g->unit;
}

static void put_vid(struct plan *p, const struct copy *c, const uint8_t *data, uint64_t sequence)
{
    uint32_t crc = c->data_crc;
    p->data_size = c->data_size;
    if (c->type == DYNAMIC) {
        p->data_size = dynamic_size(&p->geometry, data, c->data_pad);
        crc = p->data_size ? plain_crc(data, p->data_size) : 0;
    }
    memcpy(p->vid, "UBI!\1", 5);
    p->vid[5] = c->type;
    p->vid[6] = c->type == STATIC || p->data_size > 0;
    p->vid[7] = c->compatibility;
    put(p->vid + 8, 4, c->volume);
    put(p->vid + 12, 4, c->leb);
    put(p->vid + 20, 4, p->data_size);
    put(p->vid + 24, 4, c->used_lebs);
    put(p->vid + 28, 4, c->data_pad);
    put(p->vid + 32, 4, crc);
    put(p->vid + 40, 8, sequence);
    put(p->vid + HEADER_CRC, 4, plain_crc(p->vid, HEADER_CRC));
}

/* the image sequence is the one that refusal 7 compares with, 0 if there is none */
static void put_ec(struct plan *p, uint32_t counter, uint32_t image_seq)
{
    memcpy(p->ec, "UBI#\1", 5);
    put(p->ec + 8, 8, counter);
    put(p->ec + 16, 4, p->geometry.vid_start);
    put(p->ec + 20, 4, p->geometry.data_start);
    put(p->ec + 24, 4, image_seq);
    put(p->ec + HEADER_CRC, 4, plain_crc(p->ec, HEADER_CRC));
}

struct plan plain_begin(const uint8_t *image, const struct report *r, const struct tables *t, struct move m)
{
    const struct geometry *g = &r->geometry;
    struct plan p = { .target = m.target, .geometry = *g };
    struct copy c;
    if (r->read_only || deleted_stands(image, r))
        return (struct plan){ .refusal = 13 };
    p.old = place_of(r, t, m.volume, m.leb);
    if (p.old == NONE)
        return (struct plan){ .refusal = 14 };
    plain_judge_vid(block(g, image, p.old) + g->vid_start, g->leb_size, &c);
    if (!is_right(g, image, p.old, &c))
        return (struct plan){ .refusal = 15 };
    if (!target_fits(image, r, t, m.target))
        return (struct plan){ .refusal = 16 };
    uint32_t counter = t->pebs[2 * p.old + 1] == NONE ? r->mean : t->pebs[2 * p.old + 1];
    if (r->highest == UINT64_MAX || counter == MOST_NUMBER)
        return (struct plan){ .refusal = 17 };
    put_vid(&p, &c, data_of(g, image, p.old), r->highest + 1);
    put_ec(&p, counter + 1, r->image_seq);
    p.steps = 3 + (p.data_size + g->unit - 1) / g->unit;
    return p;
}

/* ---- Steps ---- */

struct write plain_write(const struct plan *p, const uint8_t *image, uint32_t steps_run)
{
    const struct geometry *g = &p->geometry;
    size_t old = (size_t)p->old * g->peb_size, target = (size_t)p->target * g->peb_size;
    if (steps_run == 0)
        return (struct write){ STORE, target + g->vid_start, HEADER, p->vid };
    if (steps_run == p->steps - 2)
        return (struct write){ ERASE, old, g->peb_size, NULL };
    if (steps_run == p->steps - 1)
        return (struct write){ STORE, old, HEADER, p->ec };
    if (steps_run >= p->steps)
        return (struct write){ NOTHING, 0, 0, NULL };
    size_t start = (size_t)(steps_run - 1) * g->unit, left = p->data_size - start;
    return (struct write){ STORE, target + g->data_start + start, left < g->unit ? left : g->unit,
                           image + old + g->data_start + start };
}

void plain_apply(uint8_t *image, const struct write *w)
{
    if (w->kind == ERASE)
        memset(image + w->at, 0xFF, w->len);
    if (w->kind == STORE)
        memcpy(image + w->at, w->bytes, w->len);
}

/* ---- A stopped image ---- */

static int wrong_checksum(const uint8_t *header)
{
    return be32(header + HEADER_CRC) != plain_crc(header, HEADER_CRC);
}

static int vid_whole(const struct plan *p, const uint8_t *stopped)
{
    return memcmp(block(&p->geometry, stopped, p->target) + p->geometry.vid_start, p->vid, HEADER) == 0;
}

static int data_whole(const struct plan *p, const uint8_t *began, const uint8_t *stopped)
{
    return memcmp(data_of(&p->geometry, stopped, p->target), data_of(&p->geometry, began, p->old), p->data_size) == 0;
}

int plain_copy_whole(const struct plan *p, const uint8_t *began, const uint8_t *stopped)
{
    return vid_whole(p, stopped) && data_whole(p, began, stopped);
}

int plain_premise_fails(const struct plan *p, const uint8_t *began, const uint8_t *stopped)
{
    const struct geometry *g = &p->geometry;
    const uint8_t *target = block(g, stopped, p->target);
    const uint8_t *ec = block(g, stopped, p->old), *old_ec = block(g, began, p->old);
    if (!vid_whole(p, stopped) && !wrong_checksum(target + g->vid_start))
        return 1;
    if (vid_whole(p, stopped) && !data_whole(p, began, stopped) &&
        plain_crc(target + g->data_start, p->data_size) == be32(p->vid + 32))
        return 2;
    if (memcmp(ec, old_ec, HEADER) != 0 && memcmp(ec, p->ec, HEADER) != 0 && !wrong_checksum(ec))
        return 3;
    if (memcmp(ec + g->vid_start, old_ec + g->vid_start, HEADER) != 0 && !wrong_checksum(ec + g->vid_start))
        return 4;
    return 0;
}
