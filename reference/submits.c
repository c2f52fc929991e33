/*
 * Calls of bournejade_submit on a state with so many monitors and devices under watch, for callgrind: `submits MONITORS
 * DEVICES FRAME CALLS`, FRAME one of tick, watched, other, or ask for a call of bournejade_watchers. Monitors have one pattern each that every packet of a watched
 * device has; the frames that are measured come after those that make the state.
 */
#include <bournejade.h>
#include <stdio.h>
#include <stdlib.h>
#include <string.h>

static bournejade_state state;
static uint8_t out[BOURNEJADE_ANSWER_SIZE];
static bournejade_size wrote;
static uint32_t number;

static void give(uint8_t kind, const uint8_t *payload, size_t size)
{
    uint8_t frame[BOURNEJADE_FRAME_SIZE] = {kind};
    uint8_t refused;
    number++;
    for (int i = 0; i < 4; i++)
        frame[1 + i] = (uint8_t)(number >> 8 * i);
    memcpy(frame + 5, payload, size);
    refused = bournejade_submit(&state, frame, 5 + size, out, sizeof out, &wrote);
    if (refused) {
        fprintf(stderr, "frame %u: refused with %d\n", number, refused);
        exit(1);
    }
}

/* A packet at -60 dBm of a device; its data is an AD structure of manufacturer data that a monitor asks for, or is not. */
static void packet(int device, int known)
{
    uint8_t payload[] = {0, 0, (uint8_t)device, 7, 7, 7, 7, 7, 4, 3, 0xFF, (uint8_t)(known ? 0xAA : 0xBB), 1, 0xC4};
    give(2, payload, sizeof payload);
}

int main(int count, char **words)
{
    static const uint8_t monitor[] = {0x1E, 0xFC, 11, 3, 0xC4, 0xB0, 60, 255, 1, 1, 3, 0xFF, 0, 0xAA};
    static const uint8_t nothing[1], other[6] = {200, 7, 7, 7, 7, 7};
    uint32_t lowest;
    if (count != 5)
        return 2;
    bournejade_begin(&state, 0xFC1E, (const uint8_t *)"MS", 2);
    for (int i = 0; i < atoi(words[1]); i++)
        give(1, monitor, sizeof monitor);
    for (int i = 0; i < atoi(words[2]); i++)
        packet(i, 1);
    for (int i = 0; i < atoi(words[4]); i++) {
        if (!strcmp(words[3], "ask"))
            bournejade_watchers(&state, 0, &other, &lowest);
        else if (!strcmp(words[3], "tick"))
            give(3, nothing, 0);
        else
            packet(strcmp(words[3], "watched") ? 200 : 0, !strcmp(words[3], "watched"));
    }
    return 0;
}
