/*
 * Runs scripts of calls through the library, as crates/calls_run does through the proved calls, and writes the same
 * lines (reference/README.md, Stored scripts). Scripts come on standard input. It uses standard C alone, so that it
 * runs wherever the library does.
 */
#include <bournejade.h>
#include <stdio.h>
#include <string.h>

enum { END, START, OCTETS, LINE, SAVE, WRITE_LINE, RESTORE, FAIL_OVER, REPLAY, ADOPT, REPLAY_TO, ASK, EDITION };
enum { HEAD = 7, DEVICE = 7, NUMBER = 4, BEFORE = 0xA5, MOST = 0xFFFF };
#define PRIME 18014398509481951u

struct head {
    unsigned tag, first, second, size;
};

static bournejade_state state;
static uint8_t octets[MOST + 1], out[MOST + 1];
static uint64_t digest; /* of a script */
static unsigned long calls, count;
static unsigned long written; /* octets that the call wrote */
static int kept; /* whether what it did not write stayed as it was */

static unsigned two(const uint8_t *at)
{
    return at[0] + 256u * at[1];
}

static uint32_t four(const uint8_t *at)
{
    return two(at) + 65536u * two(at + 2);
}

static void mix(uint64_t x)
{
    digest = (digest * 257 + x % 256 + 1) % PRIME;
}

static void mix_four(uint64_t n)
{
    for (int i = 0; i < NUMBER; i++, n /= 256)
        mix(n);
}

/* The first n octets were written, of an output of so many. */
static void took(const uint8_t *text, bournejade_size n, bournejade_size lent)
{
    bournejade_size i;
    for (i = 0; i < n; i++)
        mix(text[i]);
    for (; i < lent; i++)
        kept = kept && text[i] == BEFORE;
    written += (unsigned long)n;
}

static void opened(void)
{
    written = 0;
    kept = 1;
}

static void closed(unsigned number)
{
    mix_four(written);
    mix(number);
    mix((uint64_t)kept);
    calls++;
    count += written;
}

/* A call that is lent an output. */
static unsigned lending(const struct head *h)
{
    bournejade_size wrote = 0;
    unsigned number;
    memset(out, BEFORE, h->first);
    if (h->tag == OCTETS)
        number = bournejade_submit(&state, octets, h->size, out, h->first, &wrote);
    else if (h->tag == LINE)
        number = bournejade_submit_line(&state, octets, h->size, out, h->first, &wrote);
    else if (h->tag == WRITE_LINE)
        number = bournejade_write_line(octets, h->size, out, h->first, &wrote);
    else
        number = bournejade_save(&state, out, h->first, &wrote);
    if (h->tag == FAIL_OVER && number == 0)
        return bournejade_restore(&state, out, wrote);
    took(out, wrote, h->first);
    return number;
}

static bournejade_size least(bournejade_size a, bournejade_size b)
{
    return a < b ? a : b;
}

/* A journal that is shown one piece more at a time, into an output that is emptied at refusal 3. */
static unsigned replay(const struct head *h)
{
    int to = h->tag == REPLAY_TO;
    const uint8_t *text = octets + (to ? NUMBER : 0);
    bournejade_size size = h->size - (to ? NUMBER : 0u), at = 0, shown = least(size, h->second), taken, wrote;
    unsigned number;
    uint8_t said[NUMBER];
    for (;;) {
        memset(out, BEFORE, h->first);
        number = to ? bournejade_replay_to(&state, four(octets), text + at, shown - at, out, h->first, &taken, &wrote)
                    : bournejade_replay(&state, text + at, shown - at, out, h->first, &taken, &wrote);
        took(out, wrote, h->first);
        at += taken;
        if (number != BOURNEJADE_SHORT && (number != 0 || shown == size))
            break;
        if (number == 0)
            shown = least(size, shown + h->second);
    }
    for (int i = 0; to && i < NUMBER; i++, at /= 256)
        said[i] = at % 256;
    if (to)
        took(said, NUMBER, NUMBER);
    return number;
}

/* A block of the caller's: a 0 and a number stand for so many zeros, any other octet for itself. */
static void adopt(unsigned size)
{
    unsigned at = 0;
    memset(&state, 0, sizeof state);
    for (unsigned i = 0; i < size; i++) {
        if (octets[i] == 0)
            at += octets[++i];
        else
            state.block[at++] = octets[i];
    }
}

static void ask(void)
{
    uint8_t address[6], said[2];
    uint32_t lowest, watched;
    memcpy(address, octets + 1, sizeof address);
    watched = bournejade_watchers(&state, octets[0], (const uint8_t(*)[6]) & address, &lowest);
    said[0] = (uint8_t)watched;
    said[1] = (uint8_t)lowest;
    if (watched != 0)
        took(said, sizeof said, sizeof said);
}

static unsigned call(const struct head *h)
{
    unsigned number = 0;
    if (h->tag == START)
        number = bournejade_begin(&state, (uint16_t)h->first, octets, h->size);
    else if (h->tag == RESTORE)
        number = bournejade_restore(&state, octets, h->size);
    else if (h->tag == EDITION)
        number = bournejade_add_edition(&state, four(octets), octets + NUMBER, h->size - (unsigned)NUMBER);
    else if (h->tag == ADOPT)
        adopt(h->size);
    else if (h->tag == ASK)
        ask();
    else if (h->tag == REPLAY || h->tag == REPLAY_TO)
        number = replay(h);
    else
        number = lending(h);
    return number;
}

int main(void)
{
    static const struct head last = {SAVE, BOURNEJADE_IMAGE_SIZE, 0, 0};
    uint8_t text[HEAD];
    bournejade_begin(&state, 0xFC00, NULL, 0);
    while (fread(text, 1, HEAD, stdin) == HEAD) {
        struct head h = {text[0], two(text + 1), two(text + 3), two(text + 5)};
        if (fread(octets, 1, h.size, stdin) != h.size)
            return 1;
        opened();
        closed(call(h.tag == END ? &last : &h));
        if (h.tag == END) {
            printf("%06lx%08lx %lu %lu\n", (unsigned long)(digest >> 32), (unsigned long)(digest & UINT32_MAX), calls,
                   count);
            digest = calls = count = 0;
            bournejade_begin(&state, 0xFC00, NULL, 0);
        }
    }
    return ferror(stdin) || fflush(stdout) != 0;
}
