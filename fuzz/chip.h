/* Dumps for the fuzzers: good ones by chance, and changes to them that know slips, headers, records and tables. A dump
   here is a slip of 20 bytes and an image behind it. */
#ifndef CHIP_H
#define CHIP_H
#include <stddef.h>
#include <stdint.h>

/* a row of numbers by chance, the same for the same seed */
void chance_from(uint64_t seed);
uint64_t chance(void);
uint32_t below(uint32_t bound);
int one_in(uint32_t bound);

/* a good dump in the room lent, which holds two PEBs of 1,024 bytes at least: its size */
size_t chip_make(uint8_t *dump, size_t room);
/* a few changes to a dump, most of them with checksums mended: its new size */
size_t chip_change(uint8_t *dump, size_t size, size_t room, int changes);
/* blocks of the other dump put into this one, if both have one PEB size */
void chip_mix(uint8_t *dump, size_t size, const uint8_t *other, size_t other_size);
#endif
