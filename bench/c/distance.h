/* The distance of two serial numbers as C programs have it, to measure the library beside. */
#ifndef DISTANCE_H
#define DISTANCE_H

#include <stdint.h>

/* The difference modulo 2^32, taken as a signed number; gcc keeps the bits, which C leaves to it. */
int32_t distance(uint32_t from, uint32_t to);

#endif
