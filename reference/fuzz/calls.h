/*
 * One call of the library on guarded buffers, with the checks that hold for every call: it returns a number of its
 * list, writes where it may, and a refusal changes nothing.
 */
#ifndef CALLS_H
#define CALLS_H

#include <bournejade.h>

/* The longest input and the longest output that a call is given. */
enum { INPUT_MOST = 32768, ROOM_MOST = 20480 };

enum kind { BEGIN, SUBMIT, SUBMIT_LINE, WRITE_LINE, SAVE, RESTORE, REPLAY };

/* A call: the octets that it reads, the length of the output that it is lent, at which end of its area each buffer
 * stands (a bit each: state, input, output, wrote, taken), and the octet that the areas are filled with before. */
struct call {
    enum kind kind;
    uint16_t opcode;
    const uint8_t *in;
    size_t in_size;
    size_t room;
    uint8_t places;
    uint8_t filler;
};

/* What a call gave: its number, what it wrote and took (0 where it gives none), the state and the output after it. */
struct told {
    uint8_t number;
    size_t wrote;
    size_t taken;
    bournejade_state state;
    uint8_t out[ROOM_MOST];
};

/* Makes the areas, once. */
void make_areas(void);

/* Ends the run with a fault where something does not hold. */
void hold(int holds, const char *words);

/* Makes a call on a state. */
void perform(const struct call *c, const bournejade_state *before, struct told *t);

/* The position of a state, asked of the library. */
uint32_t position_of(const bournejade_state *state, uint8_t places);

/* The same call with all buffers at the other ends, and another filler. */
struct call turned(const struct call *c);

/* Whether two calls gave the same. */
int same(const struct told *a, const struct told *b);

#endif
