/* The listing of a report in plain C, from the rules document alone. */
#ifndef LISTING_H
#define LISTING_H
#include "../bench/plain_attach.h"

/* the text's length; out has room for it */
size_t plain_listing(char *out, const struct report *r, const struct tables *t);
#endif
