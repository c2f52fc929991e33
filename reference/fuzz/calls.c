/* One call of the library on guarded buffers, with the checks that hold for every call: see calls.h. */
#include "calls.h"
#include "areas.h"
#include <stdio.h>
#include <stdlib.h>
#include <string.h>

static struct area states, inputs, outs, wrotes, takens;

/* How often each call gave each number. */
static unsigned long long counts[REPLAY + 1][16];

/* The buffers of a call, where they stand. */
struct lent {
    uint8_t *state, *out, *wrote, *taken;
    const uint8_t *in;
};

void make_areas(void)
{
    make_area(&states, 2);
    make_area(&inputs, INPUT_MOST / 4096);
    make_area(&outs, ROOM_MOST / 4096);
    make_area(&wrotes, 1);
    make_area(&takens, 1);
}

void hold(int holds, const char *words)
{
    if (!holds) {
        fprintf(stderr, "not as the header says: %s\n", words);
        abort();
    }
}

/* Whether a call of this kind has an output. */
static int writes(enum kind kind)
{
    return kind != BEGIN && kind != RESTORE;
}

/* Places a buffer in its area and fills it. */
static uint8_t *filled(const struct area *a, size_t size, int at_end, uint8_t filler)
{
    uint8_t *buffer = place(a, size, at_end);
    fill(a, buffer, size, filler);
    return buffer;
}

/* Places all buffers. */
static void lend(const struct call *c, const bournejade_state *before, struct lent *l)
{
    l->state = filled(&states, sizeof *before, c->places & 1, c->filler);
    memcpy(l->state, before, sizeof *before);
    l->out = filled(&outs, c->room, c->places & 4, c->filler);
    l->wrote = filled(&wrotes, sizeof(size_t), c->places & 8, c->filler);
    l->taken = filled(&takens, sizeof(size_t), c->places & 16, c->filler);
    uint8_t *in = place(&inputs, c->in_size, c->places & 2);
    if (c->in_size > 0)
        memcpy(in, c->in, c->in_size);
    l->in = readable(&inputs, in);
}

static uint8_t make(const struct call *c, const struct lent *l)
{
    bournejade_state *state = (bournejade_state *)l->state;
    const bournejade_state *kept = (const bournejade_state *)readable(&states, l->state);
    size_t *wrote = (size_t *)(void *)l->wrote, *taken = (size_t *)(void *)l->taken;
    switch (c->kind) {
    case BEGIN:
        return bournejade_begin(state, c->opcode, l->in, c->in_size);
    case SUBMIT:
        return bournejade_submit(state, l->in, c->in_size, l->out, c->room, wrote);
    case SUBMIT_LINE:
        return bournejade_submit_line(state, l->in, c->in_size, l->out, c->room, wrote);
    case WRITE_LINE:
        return bournejade_write_line(l->in, c->in_size, l->out, c->room, wrote);
    case SAVE:
        return bournejade_save(kept, l->out, c->room, wrote);
    case RESTORE:
        return bournejade_restore(state, l->in, c->in_size);
    case REPLAY:
        return bournejade_replay(state, l->in, c->in_size, l->out, c->room, taken, wrote);
    }
    abort();
}

/* Whether a call may return a number: a bit for each that stands in the header's list for it. */
static int listed(enum kind kind, uint8_t number)
{
    static const unsigned lists[] = {
        [BEGIN] = 1u << 0 | 1u << 9,
        [SUBMIT] = 0xFF,
        [SUBMIT_LINE] = 0xFF,
        [WRITE_LINE] = 1u << 0 | 1u << 3 | 1u << 4,
        [SAVE] = 1u << 0 | 1u << 3 | 1u << 7,
        [RESTORE] = 1u << 0 | 1u << 10,
        [REPLAY] = 0xFF & ~(1u << 1),
    };
    return number < 16 && (lists[kind] >> number & 1);
}

/* Whether a call with this number leaves the state as it was, whatever else it does. */
static int leaves(enum kind kind, uint8_t number)
{
    if (kind == SAVE || kind == WRITE_LINE)
        return 1;
    return kind == REPLAY ? number == BOURNEJADE_UNSOUND : writes(kind) && number != 0;
}

/* What holds of every call. */
static void check(const struct call *c, const bournejade_state *before, const struct lent *l, const struct told *t)
{
    size_t wrote = writes(c->kind) ? sizeof(size_t) : 0, taken = c->kind == REPLAY ? sizeof(size_t) : 0;
    hold(listed(c->kind, t->number), "the number is in the call's list");
    hold(t->wrote <= c->room, "no more is written than was lent");
    hold(t->taken <= c->in_size, "no more is taken than was given");
    hold(t->number == 0 || c->kind == REPLAY || t->wrote == 0, "a refusal writes nothing");
    hold(t->number != BOURNEJADE_UNSOUND || (t->taken == 0 && t->wrote == 0), "an unsound state takes nothing");
    hold(untouched(&outs, l->out, c->room, t->wrote, c->filler), "octets past those written stay as they were");
    hold(untouched(&states, l->state, sizeof *before, sizeof *before, c->filler), "nothing is written beside a state");
    hold(untouched(&wrotes, l->wrote, sizeof(size_t), wrote, c->filler), "nothing is written beside *wrote");
    hold(untouched(&takens, l->taken, sizeof(size_t), taken, c->filler), "nothing is written beside *taken");
    hold(!leaves(c->kind, t->number) || memcmp(before, &t->state, sizeof *before) == 0, "the state is as it was");
}

void perform(const struct call *c, const bournejade_state *before, struct told *t)
{
    struct lent l;
    lend(c, before, &l);
    t->number = make(c, &l);
    t->wrote = t->taken = 0;
    if (writes(c->kind))
        memcpy(&t->wrote, l.wrote, sizeof(size_t));
    if (c->kind == REPLAY)
        memcpy(&t->taken, l.taken, sizeof(size_t));
    memcpy(&t->state, l.state, sizeof t->state);
    check(c, before, &l, t);
    counts[c->kind][t->number]++;
    memcpy(t->out, l.out, t->wrote);
}

uint32_t position_of(const bournejade_state *state, uint8_t places)
{
    uint8_t *placed = place(&states, sizeof *state, places & 1);
    memcpy(placed, state, sizeof *state);
    return bournejade_position((const bournejade_state *)readable(&states, placed));
}

struct call turned(const struct call *c)
{
    struct call other = *c;
    other.places = (uint8_t)~c->places;
    other.filler = (uint8_t)~c->filler;
    return other;
}

int same(const struct told *a, const struct told *b)
{
    return a->number == b->number && a->wrote == b->wrote && a->taken == b->taken &&
           memcmp(&a->state, &b->state, sizeof a->state) == 0 && memcmp(a->out, b->out, a->wrote) == 0;
}

/* At the end of a run: how often each call gave each number. */
__attribute__((destructor)) static void show_counts(void)
{
    static const char *names[] = {"begin", "submit", "submit_line", "write_line", "save", "restore", "replay"};
    for (int kind = 0; kind <= REPLAY; kind++) {
        fprintf(stderr, "calls of %s:", names[kind]);
        for (int number = 0; number < 16; number++)
            if (listed((enum kind)kind, (uint8_t)number))
                fprintf(stderr, " %d: %llu", number, counts[kind][number]);
        fprintf(stderr, "\n");
    }
}
