/*
 * What include/bournejade.h says of sizes, refusals, NULL with length 0, replay as far as a frame, rows and events,
 * tried on the library. It ends with 1 at the first that is not so.
 */
#include <bournejade.h>
#include <stdio.h>
#include <stdlib.h>
#include <string.h>

enum { FRAMES = 60, IMAGE_AFTER = 12, ROOM = FRAMES * BOURNEJADE_ANSWER_SIZE };

static char journal[FRAMES * BOURNEJADE_LINE_SIZE];
static bournejade_size starts[FRAMES + 2], answers[FRAMES + 2];
static uint8_t unbroken[ROOM], out[ROOM], image[BOURNEJADE_IMAGE_SIZE];
static bournejade_state state, after_image, standby;

static void must(int holds, const char *words)
{
    if (!holds) {
        fprintf(stderr, "not as the header says: %s\n", words);
        exit(1);
    }
}

static int same(const uint8_t *a, const uint8_t *b, bournejade_size size)
{
    return memcmp(a, b, (size_t)size) == 0;
}

/* Executes the lines of standard input, and keeps where each and its answer begin. An image after frame 12. */
static bournejade_size gateway(void)
{
    bournejade_size wrote, size = 0;
    must(bournejade_begin(&state, 0xFC1E, (const uint8_t *)"MS", 2) == 0, "settings in range");
    for (uint32_t n = 1; n <= FRAMES; n++) {
        char *line = journal + starts[n];
        must(fgets(line, BOURNEJADE_LINE_SIZE + 1, stdin) != NULL, "sixty lines");
        starts[n + 1] = starts[n] + strlen(line);
        must(bournejade_submit_line(&state, (const uint8_t *)line, strlen(line), unbroken + answers[n],
                                    BOURNEJADE_ANSWER_SIZE, &wrote) == 0, "a frame is executed");
        must(bournejade_position(&state) == n, "the position");
        answers[n + 1] = answers[n] + wrote;
        if (n == IMAGE_AFTER)
            must(bournejade_save(&state, image, sizeof image, &size) == 0, "an image is saved");
    }
    must(bournejade_restore(&after_image, image, size) == 0, "the image is restored");
    return size;
}

/* Replay as far as frame `last`, from the image and frame 5 on: state, place and answers of the unbroken run. */
static void replay_to(uint32_t last)
{
    const uint8_t *lines = (const uint8_t *)journal + starts[5];
    uint32_t end = last < IMAGE_AFTER ? IMAGE_AFTER : last;
    bournejade_size all = starts[FRAMES + 1] - starts[5], taken, wrote, more, rest;
    standby = after_image;
    must(bournejade_replay_to(&standby, last, lines, all, out, sizeof out, &taken, &wrote) == 0, "as far as a frame");
    must(bournejade_position(&standby) == end, "it stops at the frame");
    must(taken == (last <= IMAGE_AFTER ? 0 : starts[last + 1] - starts[5]), "it stops behind the frame's line");
    must(wrote == answers[end + 1] - answers[IMAGE_AFTER + 1] &&
         same(out, unbroken + answers[IMAGE_AFTER + 1], wrote), "the answers up to the frame");
    must(bournejade_replay(&standby, lines + taken, all - taken, out + wrote, sizeof out - wrote, &more, &rest) == 0 &&
         taken + more == all && wrote + rest == answers[FRAMES + 1] - answers[IMAGE_AFTER + 1] &&
         same(out, unbroken + answers[IMAGE_AFTER + 1], wrote + rest) &&
         memcmp(&standby, &state, sizeof state) == 0, "it goes on behind it");
}

/* Each refusal by its number, with nothing changed. */
static void refusals(void)
{
    uint8_t tick[] = {3, 0, 0, 0, 0};
    bournejade_size wrote;
    standby = state;
    must(bournejade_submit(&state, tick, 5, out, sizeof out, &wrote) == BOURNEJADE_SEEN, "number 0");
    tick[1] = FRAMES + 2;
    must(bournejade_submit(&state, tick, 5, out, sizeof out, &wrote) == BOURNEJADE_GAP, "a gap");
    must(bournejade_submit(&state, tick, 5, out, BOURNEJADE_ANSWER_SIZE - 1, &wrote) == BOURNEJADE_SHORT, "an output");
    must(bournejade_submit_line(&state, tick, 5, out, sizeof out, &wrote) == BOURNEJADE_NOT_A_LINE, "no line");
    must(memcmp(&standby, &state, sizeof state) == 0 && wrote == 0, "a refusal changes nothing");
    memset(&standby, 0xFF, sizeof standby);
    must(bournejade_submit(&standby, tick, 5, out, sizeof out, &wrote) == BOURNEJADE_UNSOUND, "a damaged state");
    must(bournejade_restore(&standby, image, 5) == BOURNEJADE_NOT_AN_IMAGE, "a cut image");
    must(bournejade_position(&standby) == 0, "the blank state");
    must(bournejade_begin(&standby, 0xFBFF, image, 2) == BOURNEJADE_BAD_SETTINGS, "bad settings");
}

/* NULL with length 0 is an empty buffer, wherever a call reads one. */
static void nulls(void)
{
    bournejade_size wrote = 9, taken = 9;
    standby = state;
    must(bournejade_submit(&standby, NULL, 0, out, sizeof out, &wrote) == BOURNEJADE_NOT_A_LINE && wrote == 0 &&
         bournejade_submit_line(&standby, NULL, 0, out, sizeof out, &wrote) == BOURNEJADE_NOT_A_LINE &&
         bournejade_submit(&standby, NULL, 0, NULL, 0, &wrote) == BOURNEJADE_SHORT &&
         bournejade_write_line(NULL, 0, out, sizeof out, &wrote) == BOURNEJADE_NOT_A_LINE &&
         bournejade_save(&standby, NULL, 0, &wrote) == BOURNEJADE_SHORT, "an empty frame, an empty output");
    must(bournejade_replay(&standby, NULL, 0, out, sizeof out, &taken, &wrote) == 0 && taken == 0 && wrote == 0 &&
         bournejade_replay_to(&standby, FRAMES + 9, NULL, 0, out, sizeof out, &taken, &wrote) == 0 && taken == 0,
         "an empty journal");
    must(memcmp(&standby, &state, sizeof state) == 0, "an empty buffer changes nothing");
    must(bournejade_restore(&standby, NULL, 0) == BOURNEJADE_NOT_AN_IMAGE, "an empty image");
    must(bournejade_begin(&standby, 0xFC1E, NULL, 0) == 0, "an empty prefix");
}

/* The journal counted: the answers and the state of the unbroken run, rows that are not empty; then the refusals of the call. */
static void rows(void)
{
    static bournejade_row table[BOURNEJADE_ROWS], before[BOURNEJADE_ROWS], full[BOURNEJADE_ROWS];
    uint64_t all = 0;
    bournejade_size wrote;
    must(sizeof(bournejade_row) == 32, "a row is of 32 octets");
    must(bournejade_begin(&standby, 0xFC1E, (const uint8_t *)"MS", 2) == 0, "settings in range");
    for (int h = 0; h < BOURNEJADE_ROWS; h++)
        full[h].packets = full[h].reports = full[h].ticks = UINT64_MAX;
    for (uint32_t n = 1; n <= FRAMES; n++) {
        const uint8_t *line = (const uint8_t *)journal + starts[n];
        bournejade_size size = starts[n + 1] - starts[n];
        uint8_t refused = bournejade_count_line(&standby, line, size, out, BOURNEJADE_ANSWER_SIZE, &wrote, table, 15);
        must(refused == BOURNEJADE_SHORT && wrote == 0, "a table of fifteen rows");
        memcpy(before, full, sizeof full);
        after_image = standby;
        refused = bournejade_count_line(&standby, line, size, out, BOURNEJADE_ANSWER_SIZE, &wrote, full, BOURNEJADE_ROWS);
        must(refused == 0 || refused == BOURNEJADE_TOTAL, "a full table");
        must(memcmp(full, before, sizeof full) == 0, "full rows stay");
        standby = after_image;
        refused = bournejade_count_line(&standby, line, size, out, BOURNEJADE_ANSWER_SIZE, &wrote, table, BOURNEJADE_ROWS);
        must(refused == 0 && wrote == answers[n + 1] - answers[n] && same(out, unbroken + answers[n], wrote),
             "the same answer with rows");
    }
    must(memcmp(&standby, &state, sizeof state) == 0, "the same state with rows");
    for (int h = 0; h < BOURNEJADE_ROWS; h++)
        all += table[h].packets + table[h].reports + table[h].ticks;
    must(all > 0, "rows that count");
    must(bournejade_count_line(&standby, NULL, 0, out, sizeof out, &wrote, NULL, 0) == BOURNEJADE_SHORT &&
         bournejade_count_line(&standby, NULL, 0, out, sizeof out, &wrote, table, BOURNEJADE_ROWS) ==
             BOURNEJADE_NOT_A_LINE, "no rows, no line");
}

/* The events of every answer: as many octets as the answer has, none where it is cut, none behind it. */
static void events(void)
{
    for (uint32_t n = 1; n <= FRAMES; n++) {
        const uint8_t *answer = unbroken + answers[n];
        bournejade_size size = answers[n + 1] - answers[n], at = 0, next, last = 0;
        for (; (next = bournejade_event(answer, size, at)) != 0; at = next) {
            must(next == at + 2 + answer[at + 1], "an event ends behind its parameters");
            last = at;
        }
        must(at == size, "the events are the answer");
        must(size == 0 || bournejade_event(answer, size - 1, last) == 0, "a cut event");
    }
    must(bournejade_event(NULL, 0, 0) == 0 && bournejade_event(unbroken, 2, UINT64_MAX) == 0, "no event");
}

/* Every refusal has a name of its own. */
static void names(void)
{
    static const uint8_t numbers[] = {0, 1, 2, 3, 4, 5, 6, 7, 9, 10, 12, 13, 14, 15, 8};
    for (size_t i = 0; i < sizeof numbers; i++)
        for (size_t j = 0; j < i; j++)
            must(strcmp(bournejade_refusal_name(numbers[i]), bournejade_refusal_name(numbers[j])) != 0, "names");
}

int main(void)
{
    must(bournejade_version() == BOURNEJADE_VERSION && bournejade_state_size() == sizeof state &&
         bournejade_answer_size() == BOURNEJADE_ANSWER_SIZE && bournejade_image_size() == BOURNEJADE_IMAGE_SIZE &&
         bournejade_line_size() == BOURNEJADE_LINE_SIZE, "the header is the library's");
    starts[1] = answers[1] = 0;
    gateway();
    for (uint32_t last = 0; last <= FRAMES; last++)
        replay_to(last);
    refusals();
    nulls();
    rows();
    events();
    names();
    puts("header: sizes, refusals and their names, NULL, replay as far as a frame, rows, events");
    return 0;
}
