/* Choduljin: UBI images of raw NAND flash, attached, listed, moved block by block, and built from a list of volumes, by
 * proved code.
 *
 * An image is the bytes of a chip, 2 to 4,096 whole physical erase blocks (PEBs), without spare bytes. A slip is the
 * 20 bytes that say how the chip is built. A logical erase block (LEB) is a part of a volume; a PEB holds at most one.
 *
 * Slices. Memory is lent as a pointer and a number of elements (not bytes). Every length and every content is judged.
 * A call asks only that the memory it is lent is there, that a pointer is aligned and not null, also where the number
 * is 0, that a slice which the call writes overlaps no other, and that nothing else changes lent memory during the call
 * (another thread, a device, another process through a mapping). Memory need not be zeroed before it is lent. Nothing
 * is kept after a call, nothing is allocated, and no call blocks or ends the process. Calls may run at the same time
 * where none writes what another is lent. A call takes about 20 KiB of stack, choduljin_build about 32.
 *
 * Answers. Each function but the last answers a number: 0 for success, 1 to 21 for the refusals of the rules, from 256
 * on for answers of this library's own. Judged in this order: too few words lent for a struct or a length, or bytes for
 * a name (4, and nothing changes); words that are not those of a struct (CHODULJIN_UNFIT, and nothing changes); then
 * the call itself.
 * What is lent beyond an answer never changes.
 *
 * Words. A struct is lent as 64-bit words, one for each field, in the order given here. Words that a call stored can be
 * lent again as they are. What each function answers and stores is proved, for all input, as the contracts in
 * crates/capi/src say; docs/PROVED.md has where to read it.
 */
#ifndef CHODULJIN_H
#define CHODULJIN_H

#include <stddef.h>
#include <stdint.h>

#ifdef __cplusplus
extern "C" {
#endif

/* Refusals ------------------------------------------------------------------------------------------------------------
 * The lowest that applies is answered, but for the 4 of too few words, which comes first; 5 to 8 are found PEB by PEB.
 * The place is a PEB for 5 to 9 and 12, else 0. */
enum {
    CHODULJIN_MALFORMED_SLIP = 1,     /* the slip is not its four fields, or not 20 bytes; for build see there */
    CHODULJIN_BAD_GEOMETRY = 2,       /* PEB size, unit and sub-unit are outside their rules: see choduljin_geometry */
    CHODULJIN_BAD_IMAGE_SIZE = 3,     /* the image is not 2 to 4,096 whole PEBs */
    CHODULJIN_SHORT_BUFFER = 4,       /* something lent is too short */
    CHODULJIN_NEWER_HEADER = 5,       /* a header with magic and CRC right has a version above 1 */
    CHODULJIN_OTHER_STARTS = 6,       /* a good EC header names another VID start or data start than the geometry */
    CHODULJIN_OTHER_IMAGE_SEQ = 7,    /* a good EC header is of another image than the first that names one */
    CHODULJIN_UNKNOWN_INTERNAL = 8,   /* a block of an unknown internal volume that forbids any use of the chip */
    CHODULJIN_REPEATED_SEQUENCE = 9,  /* two good VID headers of one user or layout LEB share a sequence */
    CHODULJIN_EMPTY_IMAGE = 10,       /* every PEB is free or blank */
    CHODULJIN_NO_TABLE = 11,          /* neither copy of the volume table is good */
    CHODULJIN_ENTRY_MISFIT = 12,      /* a block does not fit its volume's record, or the volume's first block */
    CHODULJIN_NOT_WRITABLE = 13,      /* move: the read-only mark is set, or an internal volume's block with
                                         compatibility 1 stands */
    CHODULJIN_LEB_NOT_MAPPED = 14,    /* move: the LEB is not in the map */
    CHODULJIN_DAMAGED_COPY = 15,      /* move: the LEB's copy is not sound, or static with a wrong data CRC */
    CHODULJIN_BAD_TARGET = 16,        /* move: the target is absent, not free, or not 0xFF behind its EC header */
    CHODULJIN_NUMBERS_USED_UP = 17,   /* move: no sequence number, or no erase counter, is left */
    CHODULJIN_MAY_NOT_RUN = 18,       /* step: the plan's geometry meets 2 or the image 3; a PEB is absent, or both are
                                         one; or 19 would refuse a header of the plan */
    CHODULJIN_NOT_GOOD = 19,          /* write: a reader would not call the header good */
    CHODULJIN_BAD_VOLUMES = 20,       /* build: a volume field is not 11 to 137 bytes, there are more than the table has
                                         records, or the table that they make is not good */
    CHODULJIN_BAD_CONTENT = 21        /* build: there is not one length for each volume, they do not sum to that of the
                                         content, or one is more than its volume holds */
};

/* Answers of this library's own. */
#define CHODULJIN_OK 0u      /* success */
#define CHODULJIN_ON 256u    /* a step was carried out: call again */
#define CHODULJIN_BAD 257u   /* an EC header is lost, a VID header or a record is bad */
#define CHODULJIN_EMPTY 258u /* a record is empty: there is no volume of its number */
#define CHODULJIN_UNFIT 259u /* no struct has these words: one is too large for its field, a report's READ_ONLY above 1,
                                the number of a plan is not 0, or the place of a plan or report whose number is 0 */

/* Attaching -----------------------------------------------------------------------------------------------------------
 * slip: 20 bytes, 01 00 04 and the PEB size in 4 bytes, 02 00 02 and the unit in 2, 03 00 02 and the sub-unit in 2,
 * 00 00 00; numbers are big-endian. image: any number of bytes.
 * pebs: at least 2 words for each PEB of the image; map: at least 3; states: at least 128. They are filled:
 *   pebs[2 * i]      class of PEB i, below; pebs[2 * i + 1] its erase counter, CHODULJIN_NO_WORD if it is lost
 *   map[3 * k]       volume, map[3 * k + 1] LEB, map[3 * k + 2] PEB of entry k, by volume and then by LEB;
 *                    words up to 3 times the PEB count that no entry needs are CHODULJIN_NO_WORD
 *   states[v]        state of volume v, below
 * report: at least CHODULJIN_REPORT_WORDS words, filled with the report, or its first two with the refusal. Its
 * fields have 32 bits, the highest sequence 64.
 *
 * Answer: 0, or the refusal's number, 1 to 12, as in report[0]. Refusals 1 to 4 leave the tables as they are; 5 to 12
 * fill 2 and 3 words for each PEB of the image, and all 128 states, with CHODULJIN_NO_WORD. 4 because report is too
 * short changes nothing at all. */
enum {
    CHODULJIN_REPORT_NUMBER,      /* 0 if the image attached, else the refusal's number */
    CHODULJIN_REPORT_PLACE,       /* 0, or the refusal's place */
    CHODULJIN_REPORT_PEB_SIZE,    /* the geometry: bytes of a PEB, */
    CHODULJIN_REPORT_UNIT,        /* of the minimal I/O unit (page), */
    CHODULJIN_REPORT_SUB_UNIT,    /* of the smallest piece of a page that can be written, */
    CHODULJIN_REPORT_VID_START,   /* before the VID header, */
    CHODULJIN_REPORT_DATA_START,  /* before the data, */
    CHODULJIN_REPORT_LEB_SIZE,    /* and of a LEB */
    CHODULJIN_REPORT_PEB_COUNT,   /* PEBs of the image */
    CHODULJIN_REPORT_ENTRIES,     /* entries of the map */
    CHODULJIN_REPORT_MEAN,        /* mean of the erase counters that are not lost, rounded down; 0 if all are */
    CHODULJIN_REPORT_HIGHEST,     /* highest sequence number */
    CHODULJIN_REPORT_IMAGE_SEQ,   /* first image sequence other than 0 of a good EC header; 0 if there is none */
    CHODULJIN_REPORT_READ_ONLY,   /* 1 if a block asks that nothing be written to the chip, else 0 */
    CHODULJIN_REPORT_TABLE,       /* which copy of the volume table was taken, 0 or 1 */
    CHODULJIN_REPORT_COPIES_MARK, /* 0: both copies are good and equal; 1: one is missing or bad; 2: they differ */
    CHODULJIN_REPORT_GRADE,       /* 0: nothing wrong was found; 1: something was */
    CHODULJIN_REPORT_WORDS        /* 17 */
};

#define CHODULJIN_PEB_WORDS 2
#define CHODULJIN_ENTRY_WORDS 3
#define CHODULJIN_STATE_WORDS 128
#define CHODULJIN_NO_WORD 0xFFFFFFFFu
/* The volume in the map that holds the volume table. Record v of the table taken stands at 172 * v in the data of the
 * PEB that holds LEB report[CHODULJIN_REPORT_TABLE] of it; there are as many as fit in a LEB, at most 128. */
#define CHODULJIN_LAYOUT_VOLUME 0x7FFFEFFFu

enum { /* classes of a PEB */
    CHODULJIN_CLASS_FREE = 0,        /* a good EC header, and nothing in the place of the VID header */
    CHODULJIN_CLASS_CHOSEN = 1,      /* the copy of a LEB that counts; it is in the map */
    CHODULJIN_CLASS_PASSED_OVER = 2, /* a copy that does not count */
    CHODULJIN_CLASS_BLANK = 3,       /* 0xFF in the place of both headers */
    CHODULJIN_CLASS_UNREADABLE = 4,  /* the VID header is torn or damaged; or 0xFF, and the EC header is damaged */
    CHODULJIN_CLASS_TO_DELETE = 5,   /* of no volume of the table, or beyond its end; or other software allows it */
    CHODULJIN_CLASS_KEPT_ASIDE = 6   /* of other software that asks for it to be left alone */
};

enum { /* states of a volume */
    CHODULJIN_STATE_ABSENT = 0,   /* there is no such volume */
    CHODULJIN_STATE_GOOD = 1,     /* nothing wrong was found */
    CHODULJIN_STATE_UPDATING = 2, /* an update of it was begun and not ended */
    CHODULJIN_STATE_DAMAGED = 3   /* a copy is damaged, or a part of a static volume is missing */
};

uint32_t choduljin_attach(const uint8_t *slip, size_t slip_length, const uint8_t *image, size_t image_length,
    uint32_t *pebs, size_t pebs_length, uint32_t *map, size_t map_length, uint32_t *states, size_t states_length,
    uint64_t *report, size_t report_length);

/* The listing of a report with its tables, as text: docs/LISTING.md explains it. Of a report that is a refusal (its
 * first word is not 0) it is the line `refused N at P`, and the tables are not looked at; report has 17 words all the
 * same. The tables have at least 2 words for each PEB, 3 for each entry, and 128; length at least 1. out is filled from
 * its start; length[0] is the number of bytes.
 * Answer: 0; 4 (report, length, a table or out is too short; nothing changes); CHODULJIN_UNFIT. */
#define CHODULJIN_LISTING_MOST 262144 /* bytes; no listing of an image is longer: it has at most 220,000 */

uint32_t choduljin_listing(const uint64_t *report, size_t report_length, const uint32_t *pebs, size_t pebs_length,
    const uint32_t *map, size_t map_length, const uint32_t *states, size_t states_length,
    uint8_t *out, size_t out_length, uint64_t *length, size_t length_length);

/* Geometry ------------------------------------------------------------------------------------------------------------
 * Of three numbers of bytes. Unit and sub-unit are powers of two, 1 to 4,096, and the sub-unit is not the larger; a PEB
 * is 1,024 to 262,144 bytes, a multiple of the unit, with at least 172 bytes from the data start on (the LEB size).
 * Answer: 0 (its words are stored); 2; 4 (geometry has fewer than 6 words). Refused, it changes nothing. */
enum {
    CHODULJIN_GEOMETRY_PEB_SIZE,
    CHODULJIN_GEOMETRY_UNIT,
    CHODULJIN_GEOMETRY_SUB_UNIT,
    CHODULJIN_GEOMETRY_VID_START,
    CHODULJIN_GEOMETRY_DATA_START,
    CHODULJIN_GEOMETRY_LEB_SIZE,
    CHODULJIN_GEOMETRY_WORDS /* 6 */
};

uint32_t choduljin_geometry(uint32_t peb_size, uint32_t unit, uint32_t sub_unit,
    uint64_t *geometry, size_t geometry_length);

/* Headers -------------------------------------------------------------------------------------------------------------
 * The EC header (erase counter) of 64 bytes at the start of a PEB, and the VID header (volume identifier) at its VID
 * start, as words. */
enum {
    CHODULJIN_EC_VERSION,    /* 8 bits; 1 */
    CHODULJIN_EC_COUNTER,    /* 64 bits; at most 0x7FFFFFFF in a good header */
    CHODULJIN_EC_VID_START,  /* the others 32 bits */
    CHODULJIN_EC_DATA_START,
    CHODULJIN_EC_IMAGE_SEQ,
    CHODULJIN_EC_WORDS /* 5 */
};

enum {
    CHODULJIN_VID_VERSION,   /* 8 bits; 1 */
    CHODULJIN_VID_VOL_TYPE,  /* 8 bits; 1 dynamic, 2 static */
    CHODULJIN_VID_COPY_FLAG, /* 8 bits; 1 if it was moved with data: data size and data CRC are those of the data */
    CHODULJIN_VID_COMPAT,    /* 8 bits; compatibility of an internal volume, 0 of a user's */
    CHODULJIN_VID_VOLUME,    /* 32 bits, as those up to the sequence */
    CHODULJIN_VID_LEB,
    CHODULJIN_VID_DATA_SIZE,
    CHODULJIN_VID_USED_LEBS,
    CHODULJIN_VID_DATA_PAD,
    CHODULJIN_VID_DATA_CRC,
    CHODULJIN_VID_SEQUENCE, /* 64 bits */
    CHODULJIN_VID_WORDS     /* 11 */
};

/* The header in the first 64 bytes; a VID header is judged by the LEB size.
 * Answer: 0 (good: its words are stored); CHODULJIN_BAD; 5 (magic and CRC are right, the version is above 1); 4 (fewer
 * than 64 bytes, or too few words).
 * Only a good header changes the words. */
uint32_t choduljin_read_ec(const uint8_t *header, size_t header_length, uint64_t *ec, size_t ec_length);
uint32_t choduljin_read_vid(const uint8_t *header, size_t header_length, uint32_t leb_size,
    uint64_t *vid, size_t vid_length);

/* The header is written to the first 64 bytes of out, with its CRC and zero padding.
 * Answer: 0; 4 (too few words, or out has fewer than 64 bytes); 19; CHODULJIN_UNFIT. Only 0 changes out. */
uint32_t choduljin_write_ec(const uint64_t *ec, size_t ec_length, uint8_t *out, size_t out_length);
uint32_t choduljin_write_vid(const uint64_t *vid, size_t vid_length, uint32_t leb_size,
    uint8_t *out, size_t out_length);

/* A record of the volume table, 172 bytes, judged by LEB size and unit. name: at least 128 bytes; the name is its first
 * words[CHODULJIN_RECORD_NAME_LENGTH] bytes, none of them 0, and a 0 follows them: it is a C string. All 128 bytes of
 * the name field are stored.
 * Answer: 0 (good: words and name are stored); CHODULJIN_EMPTY; CHODULJIN_BAD; 4 (words, name or record is too short).
 * Only a good record changes words and name. */
enum {
    CHODULJIN_RECORD_RESERVED, /* PEBs reserved for the volume */
    CHODULJIN_RECORD_ALIGNMENT,
    CHODULJIN_RECORD_DATA_PAD,
    CHODULJIN_RECORD_VOL_TYPE,      /* 1 dynamic, 2 static */
    CHODULJIN_RECORD_UPDATE_MARKER, /* 1 if an update was begun and not ended */
    CHODULJIN_RECORD_NAME_LENGTH,
    CHODULJIN_RECORD_FLAGS, /* 1 autoresize, 2 skip the CRC of a static volume */
    CHODULJIN_RECORD_WORDS  /* 7 */
};

#define CHODULJIN_RECORD_BYTES 172
#define CHODULJIN_NAME_BYTES 128

uint32_t choduljin_read_record(const uint8_t *record, size_t record_length, uint32_t leb_size, uint32_t unit,
    uint64_t *words, size_t words_length, uint8_t *name, size_t name_length);

/* Moving --------------------------------------------------------------------------------------------------------------
 * A move brings a LEB to another PEB in steps: 3, and one for each unit of its data. After every step, and after a step
 * that was cut anywhere, the image attaches with every LEB's content as before, unless a checksum fits torn bytes by
 * accident: docs/POWERCUT.md has what is proved of it. So an image in a file or on a chip is safe where each step's
 * bytes are kept for good before the next step is called.
 *
 * A plan is good for one run on the image that it was begun on, as the calls before left it. After a cut, and after
 * anything else wrote the image, attach and begin anew: a stale plan is not noticed, and can destroy data.
 *
 * Words of a plan, 32 bits but for those of its headers. They are for the next call; only the first two and the number
 * of steps need be looked at. */
enum {
    CHODULJIN_PLAN_NUMBER,    /* 0 if there is a plan, else the refusal's number */
    CHODULJIN_PLAN_PLACE,     /* 0, or the refusal's place */
    CHODULJIN_PLAN_PEB_SIZE,
    CHODULJIN_PLAN_UNIT,
    CHODULJIN_PLAN_SUB_UNIT,
    CHODULJIN_PLAN_OLD,       /* the PEB that holds the LEB */
    CHODULJIN_PLAN_TARGET,    /* the PEB that it moves to */
    CHODULJIN_PLAN_VID,       /* 11 words: the target's new VID header */
    CHODULJIN_PLAN_EC = CHODULJIN_PLAN_VID + CHODULJIN_VID_WORDS,  /* 5 words: the old PEB's EC header once erased */
    CHODULJIN_PLAN_STEPS = CHODULJIN_PLAN_EC + CHODULJIN_EC_WORDS, /* the number of steps carried out */
    CHODULJIN_PLAN_WORDS      /* 24 */
};

/* The beginning: attaches as choduljin_attach does, into the tables, and makes the plan of moving a volume's LEB to the
 * target PEB. The image does not change.
 * Answer: 0 (the plan's words are stored), or the refusal's number, 1 to 17 (plan[0] and plan[1] are stored). After 13
 * to 17, and after 0, the tables hold the report's words. 4 because plan is too short changes nothing at all. */
uint32_t choduljin_begin(const uint8_t *slip, size_t slip_length, const uint8_t *image, size_t image_length,
    uint32_t *pebs, size_t pebs_length, uint32_t *map, size_t map_length, uint32_t *states, size_t states_length,
    uint32_t volume, uint32_t leb, uint32_t target, uint64_t *plan, size_t plan_length);

/* The next step, carried out on the image: the target's VID header is stored, then its data unit by unit, then the old
 * PEB is erased, then its EC header is stored. Each is one run of bytes; whoever brings them to a chip or a file stores
 * them ascending. An erase may go in any order.
 * Answer: CHODULJIN_ON (carried out; plan[CHODULJIN_PLAN_STEPS] is one higher, and no other word changes); 0 (no step
 * was left; nothing changes); 4 (plan is too short); 18; CHODULJIN_UNFIT. Refused, it changes nothing. */
uint32_t choduljin_step(uint64_t *plan, size_t plan_length, uint8_t *image, size_t image_length);

/* All steps that are left. Answer: 0 (done; plan[CHODULJIN_PLAN_STEPS] is the number of steps of the move, or stays if
 * it was higher, and no other word changes: a further call of this or of choduljin_step answers 0 and changes nothing);
 * 4 (plan is too short); 18; CHODULJIN_UNFIT. Refused, it changes nothing. */
uint32_t choduljin_finish(uint64_t *plan, size_t plan_length, uint8_t *image, size_t image_length);

/* What the next step will write, told beforehand. Answer: 0 (the words are stored); 4 (plan or write is too short); 18;
 * CHODULJIN_UNFIT. Refused, it changes nothing. */
enum {
    CHODULJIN_WRITE_KIND,  /* 0 nothing: no step is left; 1 bytes are stored; 2 a block is erased, to 0xFF */
    CHODULJIN_WRITE_AT,    /* from which byte of the image on, and how many; 0 for kind 0 */
    CHODULJIN_WRITE_COUNT,
    CHODULJIN_WRITE_WORDS  /* 3 */
};

uint32_t choduljin_next_write(const uint64_t *plan, size_t plan_length, const uint8_t *image, size_t image_length,
    uint64_t *write, size_t write_length);

/* Building ------------------------------------------------------------------------------------------------------------
 * An image from a list of volumes and their contents, as a production line writes it to erased chips.
 *
 * slip: the first 17 bytes of attaching's slip, then a field for each volume, volume 0 first, then 00 00 00. A volume's
 * field is 10 (tag 16), the length of its value in 2 bytes, 11 to 137, and the value; numbers are big-endian:
 *   4 bytes   reserved: the PEBs of the volume, at least 1; all volumes together at most the PEB count less 2
 *   4 bytes   alignment: 1, or a multiple of the unit up to the LEB size
 *   1 byte    type: 1 dynamic, 2 static
 *   1 byte    flags: 0, 1 autoresize (one volume at most), 2 skip the CRC of a static volume, or 3
 *   the rest  name: 1 to 127 bytes, none of them 0, and no two volumes have the same
 * There are at most as many fields as the table has records: LEB size / 172, at most 128. There may be none.
 * image_seq: the image sequence of every EC header, any number; 0 says nothing of which image a block is.
 * lengths: one for each volume, the number of bytes of its content, 0 for none. content: the contents, one after
 * another. A LEB of a volume holds LEB size - pad bytes, the room, with pad = LEB size mod alignment; a volume holds
 * reserved times its room.
 * image: any number of bytes; what is in them does not matter.
 *
 * The image is filled from PEB 0 up: LEBs 0 and 1 of the layout volume, with the same table; then the LEBs of volume 0,
 * those of volume 1, .. as far as the content goes, each with a room's bytes of it, the last of a volume with what is
 * left; then PEBs with an EC header alone. All erase counters are 0, the sequence in a VID header is the PEB's number
 * plus 1, copy flags and update markers are 0, and bytes that are neither header nor table nor content are 0xFF.
 * Attached with the slip less its volume fields (20 bytes) the image has grade 0, and the LEBs of a volume, one after
 * another, hold the content that was given, padded with 0xFF if the volume is dynamic.
 *
 * Answer: 0 (all bytes of the image are stored), or the refusal's number, 1, 2, 3, 20 or 21, judged in this order.
 * Refused, it changes nothing. */
uint32_t choduljin_build(const uint8_t *slip, size_t slip_length, uint32_t image_seq,
    const uint32_t *lengths, size_t lengths_length, const uint8_t *content, size_t content_length,
    uint8_t *image, size_t image_length);

/* The library's version, a byte for each number: 0x000C00 for 0.12.0. */
#define CHODULJIN_VERSION 0x000C00u

uint32_t choduljin_version(void);

#ifdef __cplusplus
}
#endif

#endif
