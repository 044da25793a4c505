/* The listing in plain C: listing.h says what it is for. */
#include "listing.h"

#include <string.h>

enum { MOST_DIGITS = 20 };

static char *word(char *p, const char *text)
{
    while (*text)
        *p++ = *text++;
    return p;
}

static char *number(char *p, const char *text, uint64_t value)
{
    char digits[MOST_DIGITS];
    int count = 0;
    p = word(p, text);
    do
        digits[count++] = (char)('0' + value % 10);
    while (value /= 10);
    while (count > 0)
        *p++ = digits[--count];
    return p;
}

static char *first_line(char *p, const struct report *r)
{
    p = number(p, "attached ", r->peb_count);
    p = number(p, " entries ", r->entries);
    p = number(p, " mean ", r->mean);
    p = number(p, " highest ", r->highest);
    p = number(p, " readonly ", r->read_only);
    p = number(p, " table ", r->table);
    p = number(p, " copies ", r->copies_mark);
    p = number(p, " grade ", r->grade);
    return word(p, "\n");
}

static char *tables(char *p, const struct report *r, const struct tables *t)
{
    for (uint32_t i = 0; i < r->peb_count; i++) {
        p = number(number(p, "peb ", i), " ", t->pebs[2 * i]);
        p = t->pebs[2 * i + 1] == NONE ? word(p, " lost") : number(p, " ", t->pebs[2 * i + 1]);
        p = word(p, "\n");
    }
    for (uint32_t k = 0; k < r->entries; k++) {
        p = number(number(p, "map ", t->map[3 * k]), " ", t->map[3 * k + 1]);
        p = word(number(p, " ", t->map[3 * k + 2]), "\n");
    }
    for (uint32_t volume = 0; volume < VOLUMES; volume++)
        if (t->states[volume] != NO_RECORD)
            p = word(number(number(p, "vol ", volume), " ", t->states[volume]), "\n");
    return p;
}

size_t plain_listing(char *out, const struct report *r, const struct tables *t)
{
    char *p;
    if (r->refusal != 0)
        p = word(number(number(out, "refused ", r->refusal), " at ", r->place), "\n");
    else
        p = tables(first_line(out, r), r, t);
    return (size_t)(p - out);
}
