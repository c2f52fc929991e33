/*
 * Memory for the buffers of a call. A page without access stands before and behind each area, and a buffer is placed
 * at one of the two ends, so an access past that end is a fault. Each area can be seen at a second address where it
 * cannot be written: there stands what a call may only read.
 */
#ifndef AREAS_H
#define AREAS_H

#include <stddef.h>
#include <stdint.h>

struct area {
    uint8_t *start;
    const uint8_t *view;
    size_t size;
};

/* Makes an area of so many pages. */
void make_area(struct area *a, size_t pages);

/* A buffer of so many octets at the start of an area, or at its end. */
uint8_t *place(const struct area *a, size_t size, int at_end);

/* A buffer's address where it can be read alone. */
const uint8_t *readable(const struct area *a, const uint8_t *buffer);

/* Fills a buffer, and what stands beside it in its area, with one octet. */
void fill(const struct area *a, uint8_t *buffer, size_t size, uint8_t filler);

/* Whether a buffer's octets past a number of them, and what stands beside it, still are that octet. */
int untouched(const struct area *a, const uint8_t *buffer, size_t size, size_t past, uint8_t filler);

#endif
