/*
 * The fuzzer's input as a list of calls of include/bournejade.h. Each begins with three octets: which call, where its
 * buffers stand, how long its output is. What follows is the call's own, and ends with the input. A session begins at
 * settings; each call gets the state that the last one left.
 */
#include "rules.h"
#include "texts.h"
#include <string.h>

enum { CALLS_MOST = 200, FRAME_MOST = 300 };

/* What is left of the input. */
struct reader {
    const uint8_t *at;
    size_t left;
};

/* The state, a copy kept for later, the last image saved, and what the last call gave. */
static bournejade_state state, kept;
static uint8_t image[BOURNEJADE_IMAGE_SIZE], text[INPUT_MOST];
static size_t image_size;
static struct told told;

/* A number of so many octets, least first; 0 for those that the input does not have. */
static size_t number(struct reader *r, int octets)
{
    size_t value = 0;
    for (int i = 0; i < octets && r->left > 0; i++, r->at++, r->left--)
        value |= (size_t)*r->at << (8 * i);
    return value;
}

/* So many octets of the input, or fewer where it ends. */
static size_t part(struct reader *r, size_t size, const uint8_t **octets)
{
    size = size < r->left ? size : r->left;
    *octets = r->at;
    r->at += size;
    r->left -= size;
    return size;
}

/* The length of an output: both sides of each edge, or a number of the input. */
static size_t room(struct reader *r)
{
    static const size_t edges[] = {2880, 13162, 20480, 5760, 0,    1,    526,  527,
                                   528,  2879, 2881,  5759, 13161, 13163, 8639, 12345};
    size_t chosen = number(r, 1) % 17;
    return chosen < 16 ? edges[chosen] : number(r, 2) % (ROOM_MOST + 1);
}

/* Gives a frame the number that is so far above the position, where it has room for one. */
static void set_number(uint8_t *frame, size_t size, uint32_t above)
{
    uint32_t n = bournejade_position(&state) + above;
    for (int i = 0; i < 4 && size >= 5; i++)
        frame[1 + i] = (uint8_t)(n >> (8 * i));
}

static void begin(struct reader *r, struct call *c)
{
    c->kind = BEGIN;
    c->opcode = (uint16_t)number(r, 2);
    c->in_size = part(r, number(r, 1), &c->in);
    begin_checked(c, &state, &told);
    state = told.state;
}

/* A frame as octets. Most have the next number, some the one that the input gives. */
static void submit(struct reader *r, struct call *c)
{
    static uint8_t frame[FRAME_MOST];
    size_t above = number(r, 1) % 8;
    c->kind = SUBMIT;
    c->in_size = part(r, number(r, 2) % FRAME_MOST, &c->in);
    memcpy(frame, c->in, c->in_size);
    c->in = frame;
    if (above < 7)
        set_number(frame, c->in_size, above > 2 ? 1 : (uint32_t)above);
    submit_checked(c, &state, &told);
    state = told.state;
}

static void submit_line(struct reader *r, struct call *c)
{
    c->kind = SUBMIT_LINE;
    c->in_size = part(r, number(r, 2) % (2 * FRAME_MOST), &c->in);
    submit_line_checked(c, &state, &told);
    state = told.state;
}

static void write_line(struct reader *r, struct call *c)
{
    c->kind = WRITE_LINE;
    c->in_size = part(r, number(r, 2) % FRAME_MOST, &c->in);
    write_line_checked(c, &state, &told);
}

static void save(struct call *c)
{
    c->kind = SAVE;
    save_checked(c, &state, &told);
    if (told.number != 0)
        return;
    image_size = told.wrote;
    memcpy(image, told.out, image_size);
}

/* Damages a text: octets changed, and some taken from its end or one put there. Gives its new length. */
static size_t damage(struct reader *r, uint8_t *octets, size_t size)
{
    size_t how = number(r, 1), less = how >> 2 & 3;
    for (size_t times = how & 3; times > 0 && size > 0; times--) {
        size_t at = number(r, 2) % size;
        octets[at] = (uint8_t)number(r, 1);
    }
    if (how & 16)
        octets[size++] = (uint8_t)number(r, 1);
    return less < size ? size - less : 0;
}

static void restore(struct call *c)
{
    c->kind = RESTORE;
    restore_checked(c, &state, &told);
    state = told.state;
}

/* A text of the input as an image. */
static void restore_text(struct reader *r, struct call *c)
{
    c->in_size = part(r, number(r, 2) % INPUT_MOST, &c->in);
    restore(c);
}

/* Records of the input, written as lines, as an image. */
static void restore_records(struct reader *r, struct call *c)
{
    const uint8_t *record;
    for (size_t records = number(r, 1); records > 0 && c->in_size < INPUT_MOST - 600; records--) {
        size_t size = part(r, number(r, 1), &record);
        c->in_size += line_of(record, size, text + c->in_size);
    }
    c->in = text;
    restore(c);
}

/* The last image saved, perhaps damaged. */
static void restore_saved(struct reader *r, struct call *c)
{
    memcpy(text, image, image_size);
    c->in_size = damage(r, text, image_size);
    c->in = text;
    restore(c);
}

static void replay(struct call *c, size_t cut)
{
    c->kind = REPLAY;
    replay_checked(c, &state, cut % (c->in_size + 1), &told);
    state = told.state;
}

/* A text of the input as a journal. */
static void replay_text(struct reader *r, struct call *c)
{
    size_t cut = number(r, 2);
    c->in_size = part(r, number(r, 2) % INPUT_MOST, &c->in);
    replay(c, cut);
}

/* Adds a frame's line to a journal so many times, with numbers that rise from one so far above the position. */
static void add_lines(struct call *c, const uint8_t *octets, size_t size, size_t times, uint32_t above)
{
    static uint8_t frame[FRAME_MOST];
    memcpy(frame, octets, size);
    for (; times > 0 && c->in_size < INPUT_MOST - 2 * FRAME_MOST - 1; times--, above++) {
        set_number(frame, size, above);
        c->in_size += line_of(frame, size, text + c->in_size);
    }
}

/* Frames of the input, each written once or more with rising numbers, as a journal; it may begin with seen ones, and
 * may be damaged. */
static void replay_frames(struct reader *r, struct call *c)
{
    const uint8_t *octets;
    size_t cut = number(r, 2);
    uint32_t above = 1 - (uint32_t)(number(r, 1) % 8);
    for (size_t frames = number(r, 1); frames > 0 && r->left > 0; frames--) {
        size_t times = number(r, 1) + 1, size = part(r, number(r, 2) % FRAME_MOST, &octets);
        add_lines(c, octets, size, times, above);
        above += (uint32_t)times;
    }
    c->in_size = damage(r, text, c->in_size);
    c->in = text;
    replay(c, cut);
}

/* Octets of the input over octets of the state. */
static void overwrite(struct reader *r)
{
    const uint8_t *octets;
    size_t at = number(r, 2) % sizeof state, size = part(r, number(r, 1), &octets);
    size = size < sizeof state - at ? size : sizeof state - at;
    memcpy(state.block + at, octets, size);
}

/* Copies the state, or takes the copy back. */
static void keep(const struct call *c)
{
    if (c->places & 32)
        state = kept;
    else
        kept = state;
}

/* The next call of the input. */
static void next(struct reader *r, uint8_t turn)
{
    size_t which = number(r, 1) % 12;
    struct call c = {.in = text, .places = (uint8_t)number(r, 1)};
    c.filler = (uint8_t)(c.places * 7 + turn * 29 + 1);
    c.room = room(r);
    switch (which) {
    case 0: begin(r, &c); break;
    case 1: submit(r, &c); break;
    case 2: submit_line(r, &c); break;
    case 3: write_line(r, &c); break;
    case 4: save(&c); break;
    case 5: restore_text(r, &c); break;
    case 6: restore_records(r, &c); break;
    case 7: restore_saved(r, &c); break;
    case 8: replay_text(r, &c); break;
    case 9: replay_frames(r, &c); break;
    case 10: overwrite(r); break;
    default: keep(&c);
    }
}

int LLVMFuzzerInitialize(int *words, char ***list);
int LLVMFuzzerTestOneInput(const uint8_t *input, size_t size);

/* Once at start: the areas, and the header's numbers against the library's. */
int LLVMFuzzerInitialize(int *words, char ***list)
{
    (void)words;
    (void)list;
    make_areas();
    hold(bournejade_version() == BOURNEJADE_VERSION && bournejade_state_size() == sizeof state &&
             bournejade_answer_size() == BOURNEJADE_ANSWER_SIZE && bournejade_image_size() == BOURNEJADE_IMAGE_SIZE &&
             bournejade_line_size() == BOURNEJADE_LINE_SIZE,
         "the header is the library's");
    return 0;
}

/* One input: a session at document 01's settings, then its calls. */
int LLVMFuzzerTestOneInput(const uint8_t *input, size_t size)
{
    struct reader r = {input, size};
    struct call c = {.kind = BEGIN, .opcode = 0xFC1E, .in = (const uint8_t *)"MS", .in_size = 2};
    memset(&state, 0, sizeof state);
    begin_checked(&c, &state, &told);
    state = kept = told.state;
    image_size = 0;
    for (uint8_t turn = 0; turn < CALLS_MOST && r.left > 0; turn++)
        next(&r, turn);
    return 0;
}
