/* Dumps for the fuzzers: chip.h says what it is for. */
#include "chip.h"

#include "../bench/plain_attach.h"

#include <string.h>

enum { MOST_BLOCKS = 12, MOST_VOLUMES = 3, MOST_LEBS = 4, SEQ_AT = 24, NAME_AT = 16, FLAGS_AT = 144 };
enum { SEQ = 0x5EED0001 };

/* ---- Chance ---- */

static uint64_t state;

void chance_from(uint64_t seed)
{
    state = seed;
}

/* splitmix64 */
uint64_t chance(void)
{
    uint64_t z = state += 0x9E3779B97F4A7C15u;
    z = (z ^ z >> 30) * 0xBF58476D1CE4E5B9u;
    z = (z ^ z >> 27) * 0x94D049BB133111EBu;
    return z ^ z >> 31;
}

uint32_t below(uint32_t bound)
{
    return (uint32_t)(chance() >> 32) % bound;
}

int one_in(uint32_t bound)
{
    return below(bound) == 0;
}

/* ---- A chip ---- */

struct chip {
    struct geometry g;
    uint8_t *slip, *image;
    size_t size, room; /* of the image; what is lent for it */
    uint32_t n;        /* whole PEBs */
};

static const uint16_t geometries[][3] = {
    { 1024, 1, 1 },      { 1024, 64, 64 },   { 1024, 128, 32 }, { 1024, 256, 256 },   { 1024, 2, 1 },
    { 1025, 1, 1 },      { 1088, 64, 32 },   { 1536, 512, 512 }, { 1536, 512, 256 },  { 2048, 512, 512 },
    { 2048, 1024, 512 }, { 2048, 256, 256 }, { 2048, 8, 4 },    { 3072, 1024, 1024 }, { 4096, 2048, 512 },
    /* where inputs may be that long: as many records as a table ever has, just so and with room behind them */
    { 23040, 512, 512 }, { 22528, 64, 64 },
};
enum { GEOMETRIES = sizeof geometries / sizeof *geometries, LONGEST_SMALL = 4096 };

static uint8_t *block(const struct chip *c, uint32_t peb)
{
    return c->image + (size_t)peb * c->g.peb_size;
}

static uint8_t *some_block(const struct chip *c)
{
    return block(c, below(c->n));
}

static void put_slip(uint8_t *slip, const struct geometry *g)
{
    memcpy(slip, "\1\0\4....\2\0\2..\3\0\2..\0\0\0", SLIP);
    put(slip + 3, 4, g->peb_size);
    put(slip + 10, 2, g->unit);
    put(slip + 15, 2, g->sub_unit);
}

static void mend_header(uint8_t *header)
{
    put(header + HEADER_CRC, 4, plain_crc(header, HEADER_CRC));
}

static void mend_record(uint8_t *record)
{
    put(record + RECORD_CRC, 4, plain_crc(record, RECORD_CRC));
}

/* that of the first good EC header which has one; a new one if none has */
static uint32_t image_seq(const struct chip *c)
{
    for (uint32_t peb = 0; peb < c->n; peb++)
        if (plain_judge_ec(block(c, peb)) == GOOD && be32(block(c, peb) + SEQ_AT) != 0)
            return be32(block(c, peb) + SEQ_AT);
    return SEQ;
}

static void put_ec(const struct chip *c, uint8_t *ec, uint32_t seq)
{
    memset(ec, 0, HEADER);
    memcpy(ec, "UBI#\1", 5);
    put(ec + 8, 8, one_in(40) ? MOST_NUMBER - below(2) : below(1000));
    put(ec + 16, 4, c->g.vid_start);
    put(ec + 20, 4, c->g.data_start);
    put(ec + SEQ_AT, 4, seq);
    mend_header(ec);
}

static void put_vid(uint8_t *vid, const struct copy *h)
{
    memset(vid, 0, HEADER);
    memcpy(vid, "UBI!\1", 5);
    vid[5] = h->type;
    vid[6] = h->flag;
    vid[7] = h->compatibility;
    put(vid + 8, 4, h->volume);
    put(vid + 12, 4, h->leb);
    put(vid + 20, 4, h->data_size);
    put(vid + 24, 4, h->used_lebs);
    put(vid + 28, 4, h->data_pad);
    put(vid + 32, 4, h->data_crc);
    put(vid + 40, 8, h->sequence);
    mend_header(vid);
}

static int is_layout(const struct chip *c, const uint8_t *peb)
{
    struct copy h;
    return plain_judge_vid(peb + c->g.vid_start, c->g.leb_size, &h) == GOOD && h.volume == LAYOUT;
}

/* a block of the layout volume from some place on, or NULL */
static uint8_t *layout_block(const struct chip *c, uint32_t from)
{
    for (uint32_t k = 0; k < c->n; k++) {
        uint8_t *peb = block(c, (from + k) % c->n);
        if (is_layout(c, peb))
            return peb;
    }
    return NULL;
}

/* the highest sequence of the VID headers as they stand, so that one more is new */
static uint64_t highest(const struct chip *c)
{
    uint64_t most = 0;
    struct copy h;
    for (uint32_t peb = 0; peb < c->n; peb++)
        if (plain_judge_vid(block(c, peb) + c->g.vid_start, c->g.leb_size, &h) == GOOD && h.sequence > most)
            most = h.sequence;
    return most;
}

/* ---- Good chips ---- */

static void put_record(const struct chip *c, uint8_t *record, uint32_t volume, uint32_t most)
{
    uint32_t units = c->g.leb_size / c->g.unit;
    uint32_t alignment = one_in(2) ? 1 : c->g.unit * (1 + below(units));
    memset(record, 0, RECORD);
    put(record, 4, 1 + below(most < MOST_LEBS ? most : MOST_LEBS));
    put(record + 4, 4, alignment);
    put(record + 8, 4, c->g.leb_size % alignment);
    record[12] = one_in(2) ? STATIC : DYNAMIC;
    record[13] = one_in(12);
    record[15] = 3;
    memcpy(record + NAME_AT, "vol", 3);
    record[NAME_AT + 2] = (uint8_t)('0' + volume);
    record[FLAGS_AT] = one_in(4) ? SKIP_CRC : 0;
    mend_record(record);
}

static void put_table(const struct chip *c, uint8_t *table)
{
    uint32_t count = plain_record_count(c->g.leb_size), left = c->n - 2;
    for (uint32_t i = 0; i < count; i++) {
        uint8_t *record = table + i * RECORD;
        memset(record, 0, RECORD);
        if (i < MOST_VOLUMES && left > 0 && !one_in(4))
            put_record(c, record, i, left);
        left -= be32(record);
        mend_record(record);
    }
}

/* mostly short, so that a moved LEB has few data; at times with 0xFF inside and at its end */
static void put_data(const struct chip *c, uint8_t *peb)
{
    uint32_t len = one_in(4) ? c->g.leb_size : below(c->g.unit < 32 ? 32 : 2 * c->g.unit);
    for (uint32_t i = 0; i < len && i < c->g.leb_size; i++)
        peb[c->g.data_start + i] = one_in(4) ? 0xFF : (uint8_t)chance();
}

/* a header for a LEB as its record asks for it, over the data as they are */
static void put_user(const struct chip *c, uint8_t *peb, const uint8_t *record, struct copy h)
{
    uint32_t most;
    h.type = record[12];
    h.data_pad = be32(record + 8);
    if (2 * (uint64_t)h.data_pad >= c->g.leb_size)
        h.data_pad = 0;
    most = c->g.leb_size - h.data_pad;
    if (h.type == STATIC) {
        h.used_lebs = h.used_lebs ? h.used_lebs : 1 + h.leb;
        h.data_size = h.leb + 1 == h.used_lebs ? 1 + below(most) : most;
    } else {
        h.used_lebs = 0;
        h.data_size = h.flag ? 1 + below(most) : 0;
    }
    h.data_crc = h.data_size ? plain_crc(peb + c->g.data_start, h.data_size) : 0;
    if (h.data_size && one_in(10))
        h.data_crc ^= 1;
    put_vid(peb + c->g.vid_start, &h);
}

/* the next block of a new chip, with its EC header; NULL if no more than so many are left */
static uint8_t *next_block(struct chip *c, uint32_t *taken, uint32_t left)
{
    if (*taken + left >= c->n)
        return NULL;
    uint8_t *peb = block(c, (*taken)++);
    put_ec(c, peb, SEQ);
    return peb;
}

static void put_volume(struct chip *c, const uint8_t *record, uint32_t volume, uint32_t *taken, uint64_t *sequence)
{
    uint32_t reserved = be32(record), used = record[12] == STATIC ? 1 + below(reserved) : 0, left = below(4);
    for (uint32_t leb = 0; leb < (used ? used : reserved); leb++)
        for (uint32_t k = one_in(12) ? 0 : one_in(4) ? 2 : 1; k > 0; k--) {
            struct copy h = { .volume = volume, .leb = leb, .used_lebs = used, .flag = one_in(2) };
            uint8_t *peb = next_block(c, taken, left);
            if (!peb)
                return;
            put_data(c, peb);
            h.sequence = ++*sequence;
            put_user(c, peb, record, h);
        }
}

static void put_layout(struct chip *c, const uint8_t *table, uint32_t leb, uint32_t *taken, uint64_t *sequence)
{
    struct copy h = { .volume = LAYOUT, .leb = leb, .type = DYNAMIC, .compatibility = REJECT };
    uint8_t *peb = next_block(c, taken, 0);
    h.sequence = ++*sequence;
    memcpy(peb + c->g.data_start, table, plain_record_count(c->g.leb_size) * RECORD);
    put_vid(peb + c->g.vid_start, &h);
}

static void swap_blocks(struct chip *c)
{
    uint8_t *a = some_block(c), *b = some_block(c);
    for (uint32_t i = 0; i < c->g.peb_size; i++) {
        uint8_t kept = a[i];
        a[i] = b[i];
        b[i] = kept;
    }
}

/* good EC headers of units older than the image sequence: none of them, half, nearly all or all */
static void older_ec(struct chip *c)
{
    static const uint8_t of_8[] = { 0, 4, 7, 8 };
    uint32_t share = of_8[below(4)];
    for (uint32_t peb = 0; peb < c->n; peb++)
        if (below(8) < share && plain_judge_ec(block(c, peb)) == GOOD) {
            put(block(c, peb) + SEQ_AT, 4, 0);
            mend_header(block(c, peb));
        }
}

/* another image sequence in one EC header: refusal 7, if another header has one */
static void other_seq(struct chip *c)
{
    uint8_t *ec = some_block(c);
    if (plain_judge_ec(ec) != GOOD)
        return;
    put(ec + SEQ_AT, 4, one_in(2) ? 1 + below(3) : image_seq(c) ^ 1u << below(32));
    mend_header(ec);
}

static struct geometry some_geometry(size_t room)
{
    for (;;) {
        const uint16_t *three = geometries[below(GEOMETRIES)];
        struct geometry g = { .peb_size = three[0], .unit = three[1], .sub_unit = three[2] };
        if (plain_geometry(&g) == 0 && SLIP + 4 * (size_t)g.peb_size <= room)
            return g;
        if (room < SLIP + 4 * 1024) {
            g = (struct geometry){ .peb_size = 1024, .unit = 64, .sub_unit = 64 };
            plain_geometry(&g);
            return g;
        }
    }
}

size_t chip_make(uint8_t *dump, size_t room)
{
    static uint8_t table[VOLUMES * RECORD];
    struct chip c = { .g = some_geometry(room), .slip = dump, .image = dump + SLIP };
    uint32_t taken = 0, most = (uint32_t)((room - SLIP) / c.g.peb_size);
    uint64_t sequence = one_in(20) ? UINT64_MAX - 20 : below(1000);
    most = most > MOST_BLOCKS ? MOST_BLOCKS : most;
    c.n = most < 4 ? most : 4 + below(most - 3);
    c.size = (size_t)c.n * c.g.peb_size;
    put_slip(dump, &c.g);
    memset(c.image, 0xFF, c.size);
    put_table(&c, table);
    put_layout(&c, table, 0, &taken, &sequence);
    put_layout(&c, table, 1, &taken, &sequence);
    for (uint32_t volume = 0; volume < MOST_VOLUMES && volume < plain_record_count(c.g.leb_size); volume++)
        if (be32(table + volume * RECORD) != 0)
            put_volume(&c, table + volume * RECORD, volume, &taken, &sequence);
    while (taken < c.n && !one_in(6))
        next_block(&c, &taken, 0);
    for (uint32_t k = 0; k < c.n; k++)
        swap_blocks(&c);
    older_ec(&c);
    if (one_in(16))
        other_seq(&c);
    return SLIP + c.size;
}

/* ---- Changes ---- */

struct field {
    uint8_t at, width;
};

/* fields that refuse nearly every image (magic, version, CRC) stand once, the others more often */
static const struct field ec_fields[] = {
    { 0, 4 }, { 4, 1 }, { 8, 8 }, { 8, 8 }, { 8, 8 }, { 16, 4 }, { 20, 4 }, { 24, 4 }, { 28, 4 }, { 60, 4 },
};
static const struct field vid_fields[] = {
    { 0, 4 },  { 4, 1 },  { 5, 1 },  { 6, 1 },  { 6, 1 },  { 7, 1 },  { 8, 4 },  { 8, 4 },  { 12, 4 }, { 12, 4 },
    { 20, 4 }, { 20, 4 }, { 24, 4 }, { 24, 4 }, { 28, 4 }, { 28, 4 }, { 32, 4 }, { 40, 8 }, { 40, 8 }, { 48, 4 },
    { 60, 4 },
};
static const struct field record_fields[] = {
    { 0, 4 },  { 0, 4 },  { 0, 4 },   { 4, 4 },   { 4, 4 },   { 8, 4 },   { 8, 4 },   { 12, 1 },  { 13, 1 },
    { 14, 2 }, { 16, 1 }, { 18, 1 },  { 19, 1 },  { 143, 1 }, { 144, 1 }, { 144, 1 }, { 145, 4 }, { 168, 4 },
};
#define ONE_OF(list) list[below(sizeof list / sizeof *list)]

static uint64_t field(const uint8_t *at, struct field f)
{
    uint64_t value = 0;
    for (int i = 0; i < f.width; i++)
        value = value << 8 | at[f.at + i];
    return value;
}

/* values on the edges of the rules, beside the one that stands */
static uint64_t edge(const struct chip *c, uint64_t now)
{
    static const uint64_t fixed[] = {
        0, 0, 1, 1, 2, 2, 3, 4, 5, 127, 128, 0xFF, 0xFFFF, MOST_NUMBER, MOST_NUMBER + 1u, 0xFFFFFFFF, UINT64_MAX,
        UINT64_MAX - 1, LAYOUT, LAYOUT - 1, LAYOUT + 1, 0x100000000u,
    };
    uint64_t sizes[] = { c->g.leb_size,     c->g.leb_size + 1u,   c->g.leb_size - 1u,        c->g.unit,
                         c->g.leb_size / 2, c->g.peb_size,        (c->g.leb_size + 1u) / 2, c->n,
                         c->n - 2u,         c->g.leb_size / 2 + 1 };
    switch (below(8)) {
    case 0:
    case 1:
        return now + 1;
    case 2:
        return now - 1;
    case 3:
        return ONE_OF(sizes);
    case 4:
        return below(8);
    case 5:
        return now ^ (uint64_t)1 << below(64);
    default:
        return ONE_OF(fixed);
    }
}

static int mended(void)
{
    return !one_in(8);
}

/* the data CRC of a header whose data size is within the block, and the header's own */
static void mend_data(const struct chip *c, uint8_t *peb)
{
    uint8_t *vid = peb + c->g.vid_start;
    uint32_t size = be32(vid + 20);
    if (size <= c->g.leb_size)
        put(vid + 32, 4, size ? plain_crc(peb + c->g.data_start, size) : 0);
    mend_header(vid);
}

static void change_ec(struct chip *c)
{
    uint8_t *ec = some_block(c);
    struct field f = ONE_OF(ec_fields);
    if (f.at == 4 && !one_in(4))
        return;
    put(ec + f.at, f.width, one_in(4) ? field(some_block(c), f) : edge(c, field(ec, f)));
    if (mended())
        mend_header(ec);
}

static void change_vid(struct chip *c)
{
    uint8_t *peb = some_block(c), *vid = peb + c->g.vid_start;
    struct field f = ONE_OF(vid_fields);
    if (f.at == 4 && !one_in(4))
        return;
    put(vid + f.at, f.width, one_in(4) ? field(some_block(c) + c->g.vid_start, f) : edge(c, field(vid, f)));
    if (one_in(2))
        mend_data(c, peb);
    else if (mended())
        mend_header(vid);
}

/* type and flag together, with the sizes that they ask for */
static void change_kind(struct chip *c)
{
    uint8_t *peb = some_block(c), *vid = peb + c->g.vid_start;
    vid[5] = (uint8_t)(1 + below(2));
    vid[6] = (uint8_t)below(2);
    put(vid + 24, 4, vid[5] == STATIC ? be32(vid + 12) + 1 + below(2) : 0);
    put(vid + 20, 4, vid[5] == STATIC || vid[6] ? c->g.leb_size - be32(vid + 28) : 0);
    mend_data(c, peb);
}

static void change_internal(struct chip *c)
{
    static const uint8_t compatibilities[] = { DELETE, READ_ONLY, PRESERVE, REJECT, 0, 3, 6 };
    uint8_t *vid = some_block(c) + c->g.vid_start;
    put(vid + 8, 4, one_in(4) ? LAST_INTERNAL : LAYOUT + below(3));
    vid[7] = ONE_OF(compatibilities);
    if (mended())
        mend_header(vid);
}

/* a good header of a LEB of the table, mostly newer than all */
static void fresh_user(struct chip *c)
{
    uint8_t *peb = some_block(c), *layout = layout_block(c, below(c->n));
    uint32_t volume = below(plain_record_count(c->g.leb_size));
    if (!layout || layout == peb)
        return;
    struct copy h = { .volume = volume, .leb = below(4), .flag = one_in(2), .used_lebs = below(5) };
    h.sequence = one_in(6) ? below(8) : highest(c) + 1;
    put_user(c, peb, layout + c->g.data_start + volume * RECORD, h);
}

static void fresh_ec(struct chip *c)
{
    put_ec(c, some_block(c), one_in(3) ? 0 : image_seq(c));
}

static void all_ec(struct chip *c)
{
    uint32_t seq = image_seq(c);
    for (uint32_t peb = 0; peb < c->n; peb++)
        put_ec(c, block(c, peb), one_in(4) ? 0 : seq);
}

/* the same record into all layout blocks, or only into one */
static void to_tables(struct chip *c, const uint8_t *record, uint32_t number)
{
    for (uint32_t peb = 0; peb < c->n; peb++)
        if (is_layout(c, block(c, peb)) && !one_in(10))
            memmove(block(c, peb) + c->g.data_start + number * RECORD, record, RECORD);
}

static void change_record(struct chip *c)
{
    uint8_t record[RECORD], *layout = layout_block(c, below(c->n));
    uint32_t number = below(one_in(4) ? plain_record_count(c->g.leb_size) : 2);
    struct field f = ONE_OF(record_fields);
    if (!layout)
        return;
    memcpy(record, layout + c->g.data_start + number * RECORD, RECORD);
    put(record + f.at, f.width, edge(c, field(record, f)));
    if (f.at == 4 && be32(record + 4) != 0)
        put(record + 8, 4, c->g.leb_size % be32(record + 4));
    if (mended())
        mend_record(record);
    to_tables(c, record, number);
}

/* names that are the beginning of each other, or as long as a name may be, or one byte longer */
static void other_name(uint8_t *record)
{
    uint32_t len = one_in(4) ? 126 + below(3) : 1 + below(4);
    memset(record + NAME_AT, 0, FLAGS_AT - NAME_AT);
    memset(record + NAME_AT, 'v', len);
    put(record + 14, 2, len);
}

static void fresh_record(struct chip *c)
{
    uint8_t record[RECORD] = { 0 };
    uint32_t number = below(plain_record_count(c->g.leb_size));
    if (!one_in(4))
        put_record(c, record, one_in(4) ? below(3) : number, one_in(2) ? 1 : MOST_LEBS);
    if (one_in(2))
        other_name(record);
    if (one_in(6))
        record[FLAGS_AT] |= AUTORESIZE;
    mend_record(record);
    to_tables(c, record, number);
}

/* one good table for all layout blocks */
static void fresh_table(struct chip *c)
{
    static uint8_t table[VOLUMES * RECORD];
    if (c->n < FEWEST_PEBS)
        return;
    put_table(c, table);
    for (uint32_t peb = 0; peb < c->n; peb++)
        if (is_layout(c, block(c, peb)))
            memcpy(block(c, peb) + c->g.data_start, table, plain_record_count(c->g.leb_size) * RECORD);
}

/* a layout block newer than all, with the table of another */
static void fresh_layout(struct chip *c)
{
    struct copy h = { .volume = LAYOUT, .leb = below(2), .type = DYNAMIC, .compatibility = REJECT };
    uint8_t *from = layout_block(c, below(c->n)), *to = some_block(c);
    if (from && to != from)
        memcpy(to + c->g.data_start, from + c->g.data_start, c->g.leb_size);
    h.sequence = highest(c) + 1;
    put_vid(to + c->g.vid_start, &h);
}

/* a table again for a chip that lost its own */
static void revive(struct chip *c)
{
    if (!layout_block(c, 0))
        fresh_layout(c);
    fresh_table(c);
}

static void one_table(struct chip *c)
{
    uint8_t *from = layout_block(c, below(c->n)), *to = some_block(c);
    if (from && to != from)
        memcpy(to + c->g.data_start, from + c->g.data_start, c->g.leb_size);
}

static void double_block(struct chip *c)
{
    uint8_t *from = some_block(c), *to = some_block(c);
    if (from != to)
        memcpy(to, from, c->g.peb_size);
}

/* a block doubled under another sequence, its flag set by chance */
static void newer_copy(struct chip *c)
{
    uint8_t *from = some_block(c), *to = some_block(c), *vid = to + c->g.vid_start;
    if (from == to)
        return;
    memcpy(to, from, c->g.peb_size);
    put(vid + 40, 8, one_in(4) ? be64(vid + 40) - 1 : highest(c) + 1);
    if (vid[5] == DYNAMIC && one_in(2)) {
        vid[6] ^= 1;
        put(vid + 20, 4, vid[6] & 1 ? 1 + below(c->g.leb_size) : 0);
    }
    mend_data(c, to);
    if (one_in(4))
        to[c->g.data_start] ^= 0x10;
}

static void tear(struct chip *c)
{
    uint8_t *peb = some_block(c);
    uint32_t at = below(HEADER + 1);
    uint8_t *from = one_in(2) ? peb : peb + c->g.vid_start;
    if (one_in(3)) {
        from = peb + c->g.data_start;
        at = below(c->g.leb_size + 1);
        memset(from + at, 0xFF, c->g.leb_size - at);
        return;
    }
    memset(from + at, 0xFF, HEADER - at);
}

static void erase(struct chip *c)
{
    uint8_t *peb = some_block(c);
    switch (below(4)) {
    case 0:
        memset(peb, 0xFF, c->g.peb_size);
        return;
    case 1:
        memset(peb, 0xFF, HEADER);
        return;
    case 2:
        memset(peb + HEADER, 0xFF, c->g.peb_size - HEADER);
        return;
    default:
        memset(peb + c->g.vid_start, 0xFF, HEADER);
    }
}

static void flip(struct chip *c)
{
    uint8_t *peb = some_block(c);
    uint32_t bound = one_in(2) ? c->g.peb_size : c->g.data_start;
    peb[below(bound)] ^= (uint8_t)(1 << below(8));
}

static void header_byte(struct chip *c)
{
    uint8_t *peb = some_block(c), *header = one_in(2) ? peb : peb + c->g.vid_start;
    header[below(HEADER)] = (uint8_t)(one_in(3) ? chance() : below(3));
    if (mended())
        mend_header(header);
}

static void data_byte(struct chip *c)
{
    uint8_t *peb = some_block(c);
    uint32_t size = be32(peb + c->g.vid_start + 20);
    peb[c->g.data_start + below(size > 0 && size < c->g.leb_size ? size + 1 : c->g.leb_size)] ^= (uint8_t)chance();
    if (one_in(2))
        mend_data(c, peb);
}

static void add_block(struct chip *c)
{
    if (c->size + c->g.peb_size > c->room || c->size % c->g.peb_size != 0 || c->n >= 2 * MOST_BLOCKS)
        return;
    uint8_t *peb = block(c, c->n);
    memset(peb, 0xFF, c->g.peb_size);
    if (!one_in(4))
        put_ec(c, peb, one_in(3) ? 0 : image_seq(c));
    c->size += c->g.peb_size;
    c->n++;
}

static void remove_block(struct chip *c)
{
    if (c->n < 3 && !one_in(10))
        return;
    c->n--;
    c->size = (size_t)c->n * c->g.peb_size;
}

static void change_slip(struct chip *c)
{
    static const struct field fields[] = {
        { 0, 1 }, { 1, 2 }, { 3, 4 }, { 3, 4 }, { 7, 3 }, { 10, 2 }, { 10, 2 }, { 12, 3 }, { 15, 2 }, { 15, 2 },
        { 17, 3 },
    };
    static const uint32_t values[] = { 0, 1, 32, 64, 512, 1023, 1024, 2048, 4096, 8192, 262144, 262145, 262143 };
    struct field f = ONE_OF(fields);
    if (one_in(3))
        put(c->slip + f.at, f.width, one_in(2) ? ONE_OF(values) : edge(c, field(c->slip, f)));
}

static void change_length(struct chip *c)
{
    if (one_in(4) && c->size > 0)
        c->size -= 1 + below(c->size < 5 ? (uint32_t)c->size : 5);
}

static void (*const changes_known[])(struct chip *) = {
    change_ec,     change_ec,    change_vid,   change_vid,   change_vid,  change_vid,   change_kind, change_internal,
    fresh_user,    fresh_user,   fresh_ec,     all_ec,       fresh_table, fresh_layout, one_table,   fresh_record,
    change_record, change_record, swap_blocks, double_block, newer_copy,  newer_copy,   tear,        erase,
    flip,          header_byte,  data_byte,    data_byte,    add_block,   add_block,    remove_block, change_slip,
    change_length, older_ec,     other_seq,
};

/* is it a slip of blocks of which an input can have a few? */
static int slip_fits(struct chip *c)
{
    if (plain_read_slip(c->slip, SLIP, &c->g) != 0)
        return 0;
    return c->g.peb_size <= LONGEST_SMALL || 4 * c->g.peb_size <= c->room;
}

size_t chip_change(uint8_t *dump, size_t size, size_t room, int changes)
{
    struct chip c = { .slip = dump, .image = dump + SLIP, .room = room - SLIP };
    if (size < SLIP || !slip_fits(&c) || one_in(2000))
        return chip_make(dump, room);
    c.size = size - SLIP;
    c.n = (uint32_t)(c.size / c.g.peb_size);
    if (c.n > 0 && one_in(5))
        revive(&c);
    while (changes-- > 0) {
        c.n = (uint32_t)(c.size / c.g.peb_size);
        if (c.n == 0)
            return chip_make(dump, room);
        ONE_OF(changes_known)(&c);
        if (!slip_fits(&c))
            break;
    }
    return SLIP + c.size;
}

void chip_mix(uint8_t *dump, size_t size, const uint8_t *other, size_t other_size)
{
    struct geometry g, h;
    if (size < SLIP || other_size < SLIP || plain_read_slip(dump, SLIP, &g) != 0 ||
        plain_read_slip(other, SLIP, &h) != 0 || g.peb_size != h.peb_size)
        return;
    uint32_t ours = (uint32_t)((size - SLIP) / g.peb_size), theirs = (uint32_t)((other_size - SLIP) / g.peb_size);
    for (uint32_t k = 1 + below(3); k > 0 && ours > 0 && theirs > 0; k--)
        memcpy(dump + SLIP + (size_t)below(ours) * g.peb_size, other + SLIP + (size_t)below(theirs) * g.peb_size,
               g.peb_size);
}
