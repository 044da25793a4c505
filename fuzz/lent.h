/* What both fuzzers share: lent memory that ends where a page begins that nobody may touch, and one attaching by the
   library and by plain C, which must agree in every word. */
#ifndef LENT_H
#define LENT_H
#include "../bench/plain_attach.h"

#include "choduljin.h"

#define BEFORE 0xDEADBEEFu /* what lent words hold before a call; no answer has such a word */

/* memory in which things of any size can be put at the end, right before that page */
struct room {
    uint8_t *end;
    size_t size;
};
struct room make_room(size_t size);
void *at_end(const struct room *r, size_t size);
void *copy_to_end(const struct room *r, const void *bytes, size_t size);

/* says what differs and ends the program as a crash */
_Noreturn void differ(const char *what, unsigned long long ours, unsigned long long theirs);

/* a call of attach, and all that it lends: three tables and a report's words, with words to spare behind each */
struct lent {
    struct room rooms[4];
    struct tables tables;
    uint64_t *report;
    size_t report_len;
};
enum { SPARE = 3 };
struct lent make_lent(void);
/* for this number of PEBs, all words BEFORE */
void lend(struct lent *l, size_t peb_count);

struct input {
    const uint8_t *slip, *image;
    size_t slip_len, image_len;
};
uint32_t library_attach(const struct input *in, const struct lent *l);
/* how many PEBs to lend for: those of the image if slip and image are whole, else a few */
size_t pebs_to_lend(const struct input *in);
/* both attach, into their own lent tables: the report of plain C. What differs ends the program */
struct report both_attach(const struct input *in, struct lent *library, struct lent *plain, int by_sort);
void same_words(const char *what, const uint32_t *ours, const uint32_t *theirs, size_t count);
void same_tables(const struct lent *library, const struct lent *plain);
#endif
