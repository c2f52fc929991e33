/* What the header says of each call, checked: see rules.h. */
#include "rules.h"
#include "texts.h"
#include <string.h>

/* What is known of a state: whether it is sound, and then its image, position and opcode. */
struct known {
    int sound;
    uint32_t position;
    uint16_t opcode;
    size_t size;
    uint8_t image[BOURNEJADE_IMAGE_SIZE];
};

/* Finds out about a state by saving it into an output of just the size that it must have. */
static void look(const bournejade_state *state, uint8_t places, struct known *k)
{
    static struct told saved;
    uint8_t head[8];
    struct call c = {.kind = SAVE, .room = BOURNEJADE_IMAGE_SIZE, .places = places, .filler = places};
    perform(&c, state, &saved);
    k->sound = saved.number == 0;
    hold(saved.number != BOURNEJADE_SHORT, "13,162 octets are enough for an image");
    k->position = position_of(state, places);
    if (!k->sound)
        return;
    k->size = saved.wrote;
    memcpy(k->image, saved.out, saved.wrote);
    /* its first line is A0, the position in four octets, the filter, the opcode in two, and more */
    saved.out[16] = '\n';
    hold(saved.wrote > 16 && octets_of(saved.out, 17, head) && head[0] == 0xA0, "an image begins with A0");
    hold(number_in(head + 1) == k->position, "an image has the position");
    k->opcode = (uint16_t)(head[6] | head[7] << 8);
}

/* Whether a state is the fresh one of settings: its image is three lines that they alone give. */
static int is_fresh(const bournejade_state *state, uint16_t opcode, const uint8_t *prefix, size_t size)
{
    static struct known k;
    uint8_t head[9 + BOURNEJADE_PREFIX_SIZE] = {0xA0, 0, 0, 0, 0, 0}, text[192];
    uint8_t edition[6 + BOURNEJADE_PREFIX_SIZE] = {0xA4, 0, 0, 0, 0, (uint8_t)size};
    head[6] = (uint8_t)opcode;
    head[7] = (uint8_t)(opcode >> 8);
    head[8] = (uint8_t)size;
    if (size > 0) {
        memcpy(head + 9, prefix, size);
        memcpy(edition + 6, prefix, size);
    }
    size_t length = line_of(head, 9 + size, text);
    length += line_of(edition, 6 + size, text + length);
    memcpy(text + length, "AF0000\n", 7);
    look(state, 1, &k);
    return k.sound && k.position == 0 && k.size == length + 7 && memcmp(k.image, text, k.size) == 0;
}

void begin_checked(const struct call *c, const bournejade_state *before, struct told *t)
{
    static struct told again;
    static bournejade_state other;
    struct call turn = turned(c);
    int right = c->opcode >= 0xFC00 && c->in_size <= BOURNEJADE_PREFIX_SIZE;
    perform(c, before, t);
    hold(t->number == (right ? 0 : BOURNEJADE_BAD_SETTINGS), "settings are refused where they are out of range");
    hold(right ? is_fresh(&t->state, c->opcode, c->in, c->in_size) : is_fresh(&t->state, 0xFC00, c->in, 0),
         "settings give a fresh state, refused ones the blank state");
    memset(&other, turn.filler, sizeof other);
    perform(&turn, &other, &again);
    hold(same(t, &again), "settings give one state, whatever stood there");
}

/* Whether an octet is an RSSI: -127 to 20. */
static int is_level(uint8_t octet)
{
    int level = octet < 128 ? octet : octet - 256;
    return level >= -127 && level <= 20;
}

/* The form of a packet behind its event type: kind 2 with the data, kind 4 with the scan response too. */
static int is_packet(uint8_t kind, const uint8_t *payload, size_t size)
{
    size_t at = 8;
    if (size < 8 || payload[1] > 1)
        return 0;
    for (int texts = kind == 4 ? 2 : 1; texts > 0; texts--) {
        if (at >= size || payload[at] > 31)
            return 0;
        at += 1u + payload[at];
    }
    return at + 1 == size && is_level(payload[at]);
}

/* 5 or 6, or 0, of a frame with the next number. */
static uint8_t payload_refusal(uint8_t kind, const uint8_t *payload, size_t size, uint16_t opcode)
{
    if (kind == 3)
        return size == 0 ? 0 : BOURNEJADE_BAD_PAYLOAD;
    if (kind == 1) {
        if (size < 4 || payload[2] != size - 3)
            return BOURNEJADE_BAD_PAYLOAD;
        return (payload[0] | payload[1] << 8) == opcode ? 0 : BOURNEJADE_OTHER_OPCODE;
    }
    if (!is_packet(kind, payload, size) || payload[0] > 3 || (kind == 4 && payload[0] % 2 != 0))
        return BOURNEJADE_BAD_PAYLOAD;
    return 0;
}

/* The number that a frame must get. */
static uint8_t frame_refusal(const struct known *k, const uint8_t *frame, size_t size, size_t room)
{
    if (!k->sound)
        return BOURNEJADE_UNSOUND;
    if (room < BOURNEJADE_ANSWER_SIZE)
        return BOURNEJADE_SHORT;
    if (size < 5 || size > BOURNEJADE_FRAME_SIZE || frame[0] < 1 || frame[0] > 4)
        return BOURNEJADE_NOT_A_LINE;
    uint32_t number = number_in(frame + 1);
    if (number <= k->position)
        return BOURNEJADE_SEEN;
    if (number - k->position > 1)
        return BOURNEJADE_GAP;
    return payload_refusal(frame[0], frame + 5, size - 5, k->opcode);
}

/* Whether octets are events one behind another: a code, a length, so many octets. */
static int are_events(const uint8_t *octets, size_t size)
{
    size_t at = 0;
    while (at < size) {
        if (size - at < 2 || (octets[at] != 0x0E && octets[at] != 0xFF && octets[at] != 0x3E))
            return 0;
        at += 2u + octets[at + 1];
    }
    return at == size;
}

/* What holds of an executed frame. */
static void check_executed(const struct call *c, const struct known *before, const struct told *t)
{
    static struct known after;
    look(&t->state, c->places, &after);
    hold(after.sound && after.position == before->position + 1 && after.opcode == before->opcode,
         "an executed frame leaves a sound state one position on");
    hold(t->wrote <= BOURNEJADE_ANSWER_SIZE && are_events(t->out, t->wrote), "an answer is events, not over 2,880");
}

void submit_checked(const struct call *c, const bournejade_state *before, struct told *t)
{
    static struct told other;
    static struct known k;
    static uint8_t line[2 * INPUT_MOST + 1];
    struct call turn = turned(c);
    look(before, c->places, &k);
    perform(c, before, t);
    hold(t->number == frame_refusal(&k, c->in, c->in_size, c->room), "a frame gets the number that it must");
    if (t->number == 0)
        check_executed(c, &k, t);
    turn.kind = SUBMIT_LINE;
    turn.in = line;
    turn.in_size = line_of(c->in, c->in_size, line);
    perform(&turn, before, &other);
    hold(same(t, &other), "a frame and its line have the same result");
}

void submit_line_checked(const struct call *c, const bournejade_state *before, struct told *t)
{
    static struct told other;
    static struct known k;
    static uint8_t frame[INPUT_MOST];
    struct call turn = turned(c);
    look(before, c->places, &k);
    perform(c, before, t);
    int line = octets_of(c->in, c->in_size, frame);
    turn.kind = SUBMIT;
    turn.in = frame;
    turn.in_size = line ? c->in_size / 2 : 0;
    hold(t->number == frame_refusal(&k, frame, turn.in_size, c->room), "a line gets the number that it must");
    if (!line)
        return;
    perform(&turn, before, &other);
    hold(same(t, &other), "a line and its frame have the same result");
}

void write_line_checked(const struct call *c, const bournejade_state *before, struct told *t)
{
    static uint8_t line[2 * INPUT_MOST + 1];
    int form = c->in_size >= 5 && c->in_size <= BOURNEJADE_FRAME_SIZE && c->in[0] >= 1 && c->in[0] <= 3;
    perform(c, before, t);
    uint8_t number = form ? 0 : BOURNEJADE_NOT_A_LINE;
    hold(t->number == (c->room < BOURNEJADE_LINE_SIZE ? BOURNEJADE_SHORT : number),
         "writing a line is refused where it must be");
    if (t->number == 0)
        hold(t->wrote == line_of(c->in, c->in_size, line) && memcmp(t->out, line, t->wrote) == 0, "a frame's line");
}

void save_checked(const struct call *c, const bournejade_state *before, struct told *t)
{
    static struct told back;
    static struct known k;
    static bournejade_state other;
    look(before, (uint8_t)~c->places, &k);
    perform(c, before, t);
    uint8_t number = c->room < BOURNEJADE_IMAGE_SIZE ? BOURNEJADE_SHORT : 0;
    hold(t->number == (k.sound ? number : BOURNEJADE_UNSOUND), "saving is refused where it must be");
    if (t->number != 0)
        return;
    hold(t->wrote == k.size && memcmp(t->out, k.image, k.size) == 0, "a state has one image");
    struct call load = {.kind = RESTORE, .in = k.image, .in_size = k.size, .places = c->places, .filler = c->filler};
    memset(&other, c->filler, sizeof other);
    perform(&load, &other, &back);
    hold(back.number == 0 && memcmp(&back.state, before, sizeof *before) == 0, "what is saved is restored");
}

void restore_checked(const struct call *c, const bournejade_state *before, struct told *t)
{
    static struct told again;
    static struct known k;
    static bournejade_state other;
    struct call turn = turned(c);
    perform(c, before, t);
    memset(&other, turn.filler, sizeof other);
    perform(&turn, &other, &again);
    hold(same(t, &again), "a text gives one state, whatever stood there");
    if (t->number != 0) {
        hold(is_fresh(&t->state, 0xFC00, c->in, 0), "a refused image leaves the blank state");
        return;
    }
    look(&t->state, c->places, &k);
    hold(k.sound && k.size == c->in_size && memcmp(k.image, c->in, k.size) == 0, "what is restored saves its text");
}

/* Adds what a later call gave to what earlier ones gave. */
static void add(struct told *sum, const struct told *t)
{
    memcpy(sum->out + sum->wrote, t->out, t->wrote);
    sum->number = t->number;
    sum->wrote += t->wrote;
    sum->taken += t->taken;
    sum->state = t->state;
}

/* The rest of a call behind what was taken and written already. */
static struct call rest(const struct call *c, const struct told *sum)
{
    struct call left = turned(c);
    left.in += sum->taken;
    left.in_size -= sum->taken;
    left.room -= sum->wrote;
    return left;
}

/* The journal in two pieces: the second begins with what the first left. */
static void in_pieces(const struct call *c, const bournejade_state *before, size_t cut, struct told *sum)
{
    static struct told second;
    struct call first = turned(c);
    first.in_size = cut;
    perform(&first, before, sum);
    if (sum->number != 0)
        return;
    struct call left = rest(c, sum);
    perform(&left, &sum->state, &second);
    add(sum, &second);
}

/* The journal line by line, each given by itself. */
static void by_lines(const struct call *c, const bournejade_state *before, struct told *sum)
{
    static struct told one;
    const uint8_t *end;
    sum->number = 0;
    sum->wrote = sum->taken = 0;
    sum->state = *before;
    while ((end = memchr(c->in + sum->taken, '\n', c->in_size - sum->taken)) != NULL) {
        struct call line = rest(c, sum);
        line.kind = SUBMIT_LINE;
        line.in_size = (size_t)(end - line.in) + 1;
        perform(&line, &sum->state, &one);
        sum->number = one.number;
        if (one.number > BOURNEJADE_SEEN)
            return;
        one.taken = line.in_size;
        one.number = 0;
        add(sum, &one);
    }
}

void replay_checked(const struct call *c, const bournejade_state *before, size_t cut, struct told *t)
{
    static struct told other;
    perform(c, before, t);
    hold(t->taken == 0 || c->in[t->taken - 1] == '\n', "replay takes whole lines");
    int more = memchr(c->in + t->taken, '\n', c->in_size - t->taken) != NULL;
    hold(t->number == 0 ? !more : more, "replay takes all whole lines, or stops at one");
    hold(t->number != BOURNEJADE_SHORT || c->room - t->wrote < BOURNEJADE_ANSWER_SIZE, "replay stops where room ends");
    in_pieces(c, before, cut, &other);
    hold(same(t, &other), "replay in two pieces is replay");
    by_lines(c, before, &other);
    hold(same(t, &other), "replay is its lines, given one after another");
}
