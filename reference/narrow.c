/*
 * The convention of calls at its narrow numbers, which the header alone does not show: an argument of 8 or 16 bits
 * may stand in a register with any bits above it, and on ARM's processors a number of 8 bits that is returned fills
 * its register. So the functions are declared here with wide numbers, and the header is not read.
 */
#include <stdint.h>
#include <stdio.h>

uint64_t bournejade_state_size(void);
uint32_t bournejade_begin(uint8_t *state, uintptr_t opcode, const uint8_t *prefix, uint64_t size);
uint32_t bournejade_position(const uint8_t *state);
uint32_t bournejade_submit(uint8_t *state, const uint8_t *frame, uint64_t size, uint8_t *out, uint64_t room,
                           uint64_t *wrote);
uint32_t bournejade_watchers(const uint8_t *state, uintptr_t kind, const uint8_t *address, uint32_t *lowest);

#if defined __arm__ || defined __aarch64__
#define RETURNED(x) (x)
#else
#define RETURNED(x) ((x) & 0xFF)
#endif

static uint8_t state[1 << 16], out[1 << 16];

/* Adds monitor 0 for one address, on the first packet; then a packet of that address; then a tick. */
static const uint8_t add[] = {1, 1, 0, 0, 0, 0x1E, 0xFC, 13, 3, 0xC4, 0xB0, 3, 0, 4, 0, 6, 5, 4, 3, 2, 1};
static const uint8_t packet[] = {2, 2, 0, 0, 0, 0, 0, 6, 5, 4, 3, 2, 1, 0, 0xC8};
static const uint8_t address[] = {6, 5, 4, 3, 2, 1};

int main(void)
{
    const uintptr_t above = UINTPTR_MAX - 0xFFFF;
    uint64_t wrote;
    uint32_t lowest, seen;
    if (bournejade_state_size() > sizeof state)
        return puts("narrow: the state"), 1;
    if (RETURNED(bournejade_begin(state, above + 0xFBFF, NULL, 0)) != 9 ||
        RETURNED(bournejade_begin(state, above + 0xFC1E, (const uint8_t *)"MS", 2)) != 0)
        return puts("narrow: the opcode"), 1;
    if (RETURNED(bournejade_submit(state, add, sizeof add, out, sizeof out, &wrote)) != 0 ||
        RETURNED(bournejade_submit(state, packet, sizeof packet, out, sizeof out, &wrote)) != 0)
        return puts("narrow: frames are executed"), 1;
    seen = RETURNED(bournejade_submit(state, packet, sizeof packet, out, sizeof out, &wrote));
    if (seen != 1 || bournejade_position(state) != 2)
        return puts("narrow: a frame is seen"), 1;
    if (bournejade_watchers(state, above + 0xFF00, address, &lowest) != 1 || lowest != 0 ||
        bournejade_watchers(state, above + 0xFF01, address, &lowest) != 0)
        return puts("narrow: the address type"), 1;
    puts("narrow: arguments and results");
    return 0;
}
