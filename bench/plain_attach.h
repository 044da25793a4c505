/* Attaching in plain C with zlib's CRC, from the rules document and its change requests alone: a second
   implementation, which the benchmark times and the fuzzers compare the library with. Whoever changes it keeps to the
   rules, away from the proved code. */
#ifndef PLAIN_ATTACH_H
#define PLAIN_ATTACH_H
#include <stddef.h>
#include <stdint.h>

enum { SLIP = 20, HEADER = 64, HEADER_CRC = 60, RECORD = 172, RECORD_CRC = 168 };
enum { VOLUMES = 128, FEWEST_PEBS = 2, MOST_PEBS = 4096 };
enum { DYNAMIC = 1, STATIC = 2 };
enum { DELETE = 1, READ_ONLY = 2, PRESERVE = 4, REJECT = 5 };
enum { AUTORESIZE = 1, SKIP_CRC = 2 };
enum { FREE, CHOSEN, PASSED_OVER, BLANK, UNREADABLE, TO_DELETE, KEPT_ASIDE };
enum { NO_RECORD, FINE, UPDATING, DAMAGED };
enum { GOOD, NOT_GOOD, NEWER };

#define LAYOUT 0x7FFFEFFFu
#define LAST_INTERNAL 0x7FFFFFFFu
#define MOST_NUMBER 0x7FFFFFFFu
#define NONE 0xFFFFFFFFu

struct geometry {
    uint32_t peb_size, unit, sub_unit, vid_start, data_start, leb_size;
};

/* a VID header's fields, and where it stands */
struct copy {
    uint32_t volume, leb, peb, data_size, used_lebs, data_pad, data_crc;
    uint8_t type, flag, compatibility;
    uint64_t sequence;
};

/* with a refusal, its place and nothing else; image_seq is the first nonzero one in good EC headers, 0 if none is */
struct report {
    uint32_t refusal, place, peb_count, entries, mean, image_seq, read_only, table, copies_mark, grade;
    uint64_t highest;
    struct geometry geometry;
};

struct tables {
    uint32_t *pebs, *map, *states;
    size_t pebs_len, map_len, states_len;
};

/* Big-endian numbers */
static inline uint32_t be16(const uint8_t *p)
{
    return (uint32_t)p[0] << 8 | p[1];
}

static inline uint32_t be32(const uint8_t *p)
{
    return (uint32_t)p[0] << 24 | (uint32_t)p[1] << 16 | (uint32_t)p[2] << 8 | p[3];
}

static inline uint64_t be64(const uint8_t *p)
{
    return (uint64_t)be32(p) << 32 | be32(p + 4);
}

static inline void put(uint8_t *at, int width, uint64_t value)
{
    while (width--) {
        at[width] = (uint8_t)value;
        value >>= 8;
    }
}

/* who hears of every run that attaching checksums; mostly nobody */
extern void (*plain_noting)(const uint8_t *bytes, size_t len);

/* without the final complement */
uint32_t plain_crc(const uint8_t *bytes, size_t len);

/* refusal 1 or 2, or 0 with the geometry */
uint32_t plain_read_slip(const uint8_t *slip, size_t len, struct geometry *g);
/* refusal 2, or 0 with the starts and the LEB size of the three numbers that are there */
uint32_t plain_geometry(struct geometry *g);
uint32_t plain_record_count(uint32_t leb_size);
/* GOOD, NOT_GOOD (an EC header lost, a VID header bad) or NEWER */
int plain_judge_ec(const uint8_t *ec);
int plain_judge_vid(const uint8_t *vid, uint32_t leb_size, struct copy *c);

/* refusals 1 to 12, or a report. Refusal 9 is judged by two nested loops, or in the sorted copies */
struct report plain_attach(const uint8_t *slip, size_t slip_len, const uint8_t *image, size_t image_len,
                           const struct tables *lent, int by_sort);
#endif
