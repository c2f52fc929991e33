/*
 * Octets of stack that each call of the library needs: what lies below the caller's own part of the stack is filled
 * with one octet before a call, and what is no longer that octet after it was used. Frames come as lines on standard
 * input; LD_BIND_NOW=1 keeps the dynamic linker's own use out of the figures.
 */
#include <bournejade.h>
#include <stdio.h>
#include <string.h>

enum { BEGIN, SUBMIT, SUBMIT_LINE, COUNT_LINE, TOTAL, WRITE_LINE, REPLAY_TO, REPLAY, SAVE, RESTORE, NOTHING };
enum { FILL = 0x5A, ROOM = 1 << 16 };

static const char *const names[] = {"begin", "submit", "submit_line", "count_line", "count_line, 12", "write_line", "replay_to",
                                    "replay", "save", "restore"};
static bournejade_state state;
static bournejade_row rows[BOURNEJADE_ROWS];
static uint8_t out[16384], image[BOURNEJADE_IMAGE_SIZE], frame[BOURNEJADE_FRAME_SIZE];
static char line[BOURNEJADE_LINE_SIZE + 2];
static bournejade_size frame_size, line_size, image_size, wrote, taken;
static size_t most[NOTHING + 1];
static int which;
static uintptr_t lowest;

/* Not inlined, so that this and the two functions below begin at the same place of the stack. */
__attribute__((noinline)) static void call(void)
{
    const uint8_t *text = (const uint8_t *)line;
    if (which == BEGIN)
        bournejade_begin(&state, 0xFC1E, (const uint8_t *)"MS", 2);
    else if (which == SUBMIT)
        bournejade_submit(&state, frame, frame_size, out, sizeof out, &wrote);
    else if (which == SUBMIT_LINE)
        bournejade_submit_line(&state, text, line_size, out, sizeof out, &wrote);
    else if (which == COUNT_LINE || which == TOTAL)
        bournejade_count_line(&state, text, line_size, out, sizeof out, &wrote, rows, BOURNEJADE_ROWS);
    else if (which == WRITE_LINE)
        bournejade_write_line(frame, frame_size, out, sizeof out, &wrote);
    else if (which == REPLAY_TO)
        bournejade_replay_to(&state, UINT32_MAX, text, line_size, out, sizeof out, &taken, &wrote);
    else if (which == REPLAY)
        bournejade_replay(&state, text, line_size, out, sizeof out, &taken, &wrote);
    else if (which == SAVE)
        bournejade_save(&state, image, sizeof image, &image_size);
    else if (which == RESTORE)
        bournejade_restore(&state, image, image_size);
}

__attribute__((noinline)) static void fill(void)
{
    volatile uint8_t room[ROOM];
    for (size_t i = 0; i < ROOM; i++)
        room[i] = FILL;
    lowest = (uintptr_t)room;
}

/* How many octets at the lowest end are as they were filled. */
__attribute__((noinline)) static size_t unused(void)
{
    const volatile uint8_t *room = (const volatile uint8_t *)lowest;
    size_t i = 0;
    while (i < ROOM && room[i] == FILL)
        i++;
    return i;
}

static void measure(int k)
{
    size_t used;
    which = k;
    fill();
    call();
    used = ROOM - unused();
    if (used > most[k])
        most[k] = used;
}

/* One line by each call that takes it, each from the same state; the last one keeps its effect. */
static void one_line(void)
{
    bournejade_state before = state;
    unsigned octet;
    frame_size = 0;
    while (frame_size < sizeof frame && sscanf(line + 2 * frame_size, "%2x", &octet) == 1)
        frame[frame_size++] = (uint8_t)octet;
    measure(WRITE_LINE);
    measure(SUBMIT);
    state = before;
    measure(SUBMIT_LINE);
    state = before;
    memset(rows, 0, sizeof rows);
    measure(COUNT_LINE);
    state = before;
    memset(rows, 0xFF, sizeof rows);
    measure(TOTAL);
    state = before;
    measure(REPLAY_TO);
    state = before;
    measure(REPLAY);
}

int main(void)
{
    measure(NOTHING);
    measure(BEGIN);
    while (fgets(line, sizeof line, stdin)) {
        line_size = strlen(line);
        one_line();
    }
    measure(SAVE);
    measure(RESTORE);
    for (int k = 0; k < NOTHING; k++)
        printf("%s %lu\n", names[k], (unsigned long)(most[k] - most[NOTHING]));
    return 0;
}
