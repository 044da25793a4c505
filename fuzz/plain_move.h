/* Moving a block in plain C, from the rules document and its change requests alone: the beginning, the write of each
   step, what a stop leaves, and demand 3's premise on a stopped image. */
#ifndef PLAIN_MOVE_H
#define PLAIN_MOVE_H
#include "../bench/plain_attach.h"

struct move {
    uint32_t volume, leb, target;
};

/* with a refusal (13 to 17) nothing else */
struct plan {
    uint32_t refusal, old, target, data_size, steps;
    struct geometry geometry;
    uint8_t vid[HEADER], ec[HEADER]; /* the new headers */
};

enum { NOTHING, STORE, ERASE };

struct write {
    int kind;
    size_t at, len;
    const uint8_t *bytes; /* of a store */
};

/* the plan of a move on an image that attaches with this report and these tables */
struct plan plain_begin(const uint8_t *image, const struct report *r, const struct tables *t, struct move m);
/* what the step after so many does to an image that those have left */
struct write plain_write(const struct plan *p, const uint8_t *image, uint32_t steps_run);
void plain_apply(uint8_t *image, const struct write *w);

/* is the new copy, header and data run, whole in a stopped image? `began` is the image before the move */
int plain_copy_whole(const struct plan *p, const uint8_t *began, const uint8_t *stopped);
/* which of the premise's parts 1 to 4 fails of a stopped image; 0 if none does */
int plain_premise_fails(const struct plan *p, const uint8_t *began, const uint8_t *stopped);
#endif
