/*
 * Bournejade: the engine of a radio gateway with Microsoft's HCI vendor extension, for firmware in C and C++.
 *
 * Link libbournejade.a (`bin/archive TARGET` writes it for x86-64, aarch64, 32-bit ARM and Cortex-M). It needs memcpy and
 * memset, on 32-bit targets also the compiler's own helpers (libgcc: __aeabi_uldivmod and the like), and nothing else: no
 * heap, no global data, no input or output. Every function is proved to return, to do nothing undefined and to give what
 * is said here, for all octets in its buffers ("document 01" is the scope). The proof is of the source; the compiler is
 * trusted, on x86-64 as on the others, and what it makes is compared (`docs/RELIABILITY.md`).
 *
 * What the caller owes:
 *  - each pointer is valid for the length that stands behind it. NULL is allowed where that length is 0, for what is
 *    read (prefix, frame, line, image, journal) and for an output (it is then too short: 3), never for state, wrote,
 *    taken (rows: NULL where rows_count is 0);
 *  - a buffer that a call may write overlaps no other buffer of that call;
 *  - a state is used by one call at a time. Different states may be used by different threads at once.
 *
 * A state is a block of 6,987 octets of the caller's, lent to each call and changed in place. It has no pointers and no
 * padding: it may be copied by memcpy and compared by memcmp, and two states are equal exactly when all their octets
 * are. Any octets in it are met: a block that is not a sound state is refused by 7.
 *
 * The order of steps. A gateway, for each frame: submit it; append its line to the journal; make that durable; only
 * then deliver the answer, with the frame's number. A standby: restore the newest image at or before the number of
 * the last answer that the host has; replay up to that number and drop the answers; replay frame by frame and
 * deliver. Before more is appended, the journal is cut behind its last LF. docs/OPERATIONS.md says why,
 * examples/gateway does it, docs/FORMATS.md has the formats octet by octet.
 *
 * The link to the host. An answer is HCI events one behind another, each its code, the number of its parameters and
 * these; bournejade_event walks them. No octet of a transport is among them: where the link is H4 (a UART), 0x04 goes
 * before each event, not once before the answer, and of a command the 0x01 before its opcode is taken away; what is left
 * is the payload of a frame of kind 1. HCI_Reset and all other commands than the settings' opcode are not the engine's.
 *
 * What a call needs. Octets of stack, measured over journals on x86-64 (reference/stack; other processors need up to 300
 * octets more, docs/RELIABILITY.md): write_line none, submit 1,020, submit_line 1,290, replay and replay_to 1,390, save
 * 640, begin 60, count_line 1,450, restore 890. No memory beside that and the caller's buffers: a state of 6,987
 * octets, outputs of 2,880, 13,162 and 527, a table of 512. The code is 50 KB (Cortex-M4: 40) and reentrant. On x86-64,
 * by the System V calling convention, it uses the general registers and those of SSE2 (xmm0 to xmm15), no x87, MMX or
 * AVX: a kernel or an interrupt handler saves these first. On Cortex-M it uses the general registers, on aarch64 those
 * of vectors too. Every call's work is bounded, that of the replays by the length of the journal. Its time may depend on
 * all that it is given: where a monitor's condition is a key (type 3), tables are read at places that depend on the key,
 * so who measures time on the same processor may learn of the key. No promise here speaks of time. Keys stand in states,
 * images and journals in the clear.
 *
 * Every call returns 0 or the number of a refusal. A refused call writes no octet of its output and leaves the state
 * as it was; refused settings (9) and a refused image (10) leave the blank state. A replay that returns a refusal may
 * have executed lines before the one refused: the state and the output then hold what those lines left. The octets of
 * an output past those written stay as they were.
 */
#ifndef BOURNEJADE_H
#define BOURNEJADE_H

#include <stddef.h>
#include <stdint.h>

#ifdef __cplusplus
extern "C" {
#endif

/* A number of octets. It has 64 bits on every target, as in the code that is proved, also where size_t has 32: there a
 * length that is passed widens by itself, but what wrote, taken and comparisons point at must be of this type. */
#if SIZE_MAX < UINT64_MAX
typedef uint64_t bournejade_size;
#else
typedef size_t bournejade_size;
#endif

/* The version of this header: major, minor, patch. bournejade_version() gives the library's. */
#define BOURNEJADE_VERSION 0x010100

/* Octets of a state, and the octets that an output must have, whatever is written: of a frame's answer, of an image,
 * of a line. An output that is shorter is refused by 3. */
#define BOURNEJADE_STATE_SIZE 6987
#define BOURNEJADE_ANSWER_SIZE 2880
#define BOURNEJADE_IMAGE_SIZE 13162
#define BOURNEJADE_LINE_SIZE 527

/* The most octets of a frame (kind, number, payload) and of an event prefix. */
#define BOURNEJADE_FRAME_SIZE 263
#define BOURNEJADE_PREFIX_SIZE 32
#define BOURNEJADE_EDITIONS 32

/* The refusal numbers of documents 01 and 02. 8 is not used (it stood for a full window, which cannot be: request T-11). */
enum bournejade_refusal {
    BOURNEJADE_DONE = 0,
    BOURNEJADE_SEEN = 1,          /* the frame's number is at most the position: it was executed before */
    BOURNEJADE_GAP = 2,           /* the number is more than one above the position */
    BOURNEJADE_SHORT = 3,         /* the output is shorter than it must be */
    BOURNEJADE_NOT_A_LINE = 4,    /* not a line, or octets that are not a frame */
    BOURNEJADE_BAD_PAYLOAD = 5,   /* the payload does not have its kind's form */
    BOURNEJADE_OTHER_OPCODE = 6,  /* a command with another opcode than the settings' */
    BOURNEJADE_UNSOUND = 7,       /* the block is not a sound state */
    BOURNEJADE_BAD_SETTINGS = 9,  /* an opcode below 0xFC00, or a prefix of more than 32 octets */
    BOURNEJADE_NOT_AN_IMAGE = 10, /* the text is not the image of a sound state */
    BOURNEJADE_TOTAL = 12,        /* a total of a row would pass 64 bits (bournejade_count_line alone) */
    BOURNEJADE_EDITIONS_FULL = 13, /* the state has 32 editions of the prefix */
    BOURNEJADE_NOT_RISING = 14,   /* an edition's number is not above the last one's, or not above the position */
    BOURNEJADE_LONG_PREFIX = 15   /* an edition's prefix has more than 32 octets */
};

/* A state. The octets are the engine's own; ask for the position, and save the rest as an image. */
typedef struct bournejade_state {
    uint8_t block[BOURNEJADE_STATE_SIZE];
} bournejade_state;

/* A handle's totals over a month, and how they lie in memory: four 64-bit numbers in this order, in the processor's order
 * of octets (x86-64: least significant first), 32 octets and no padding. A table is BOURNEJADE_ROWS of them one behind
 * another, the row of handle 0 first: 512 octets. It begins with all octets 0. A row belongs to a handle, across
 * cancels. The mean RSSI is the pair of whole numbers sum and packets; it is not stored. */
#define BOURNEJADE_ROWS 16
typedef struct bournejade_row {
    uint64_t packets; /* that matched the handle's live monitor, under watch or not */
    uint64_t reports; /* that the monitor caused: one sent only because the filter is off counts for none */
    uint64_t ticks;   /* after which a device was under the monitor's watch */
    int64_t sum;      /* of the RSSI of those packets, in dBm */
} bournejade_row;

/* The library's version, and its sizes: compare them with this header's once at start. */
uint32_t bournejade_version(void);
bournejade_size bournejade_state_size(void);
bournejade_size bournejade_answer_size(void);
bournejade_size bournejade_image_size(void);
bournejade_size bournejade_line_size(void);

/* A life begins here, at the start and at each HCI_Reset: that is no frame (its opcode is refused by 6). Frame numbers
 * begin at 1 again, so an image and a journal of different lives must never be used together; give each life a name.
 *
 * Begin with settings: the vendor opcode (0xFC00 to 0xFFFF) and the event prefix (0 to 32 octets). The state is
 * fresh: position 0, filter off, no monitors. 9 and the blank state (opcode 0xFC00, no prefix) where a setting is out
 * of range. What stood in the state before does not matter. Never refused otherwise. */
uint8_t bournejade_begin(bournejade_state *state, uint16_t opcode, const uint8_t *prefix,
                         bournejade_size prefix_size);

/* The number of the last executed frame (0: none yet): the next frame has the number above it. The last number is
 * 4,294,967,295 (at 110 frames a second after 452 days): then every frame is seen (1), and only a new life leads on.
 * Of a block that is not sound, the number that stands there. */
uint32_t bournejade_position(const bournejade_state *state);

/* Give a frame as octets: kind, number (4, least octet first), payload:
 *  - 1 command: opcode (2, least octet first), parameter length (1 to 255), parameters, the first the sub-opcode;
 *  - 2 packet: event type 0 to 3, address type 0 or 1, address (6, least octet first), data length n (0 to 31), data,
 *    RSSI (signed, -127 to 20 dBm; 127, "not available", and -128 are refused by 5: drop such a packet);
 *  - 3 tick: nothing. One is given every 100 ms; the engine has no clock;
 *  - 4 packet with its scan response: event type 0 or 2, then as a packet up to the data, scan response length (0 to
 *    31), scan response, RSSI.
 * Its answer, all the HCI events that it causes one behind another, perhaps none, is written at the front of out, and
 * *wrote is its length (0 at a refusal). Refusals, in this order: 7, 3, 4, 1, 2, 5, 6. */
uint8_t bournejade_submit(bournejade_state *state, const uint8_t *frame, bournejade_size frame_size, uint8_t *out,
                          bournejade_size out_size, bournejade_size *wrote);

/* Give a frame as its line (upper-case hexadecimal and LF), with the same result. */
uint8_t bournejade_submit_line(bournejade_state *state, const uint8_t *line, bournejade_size line_size, uint8_t *out,
                               bournejade_size out_size, bournejade_size *wrote);

/* Give a frame as its line and count it in a table of rows of the caller's: the answer, *wrote and the state are those of
 * bournejade_submit_line. Refusals, in this order: 7, 3 (also where rows_count is not BOURNEJADE_ROWS), 4, 1, 2, 5, 6,
 * 12. Each leaves the state, the output and all rows as they were: 12 also the rows that would have fitted. rows may be NULL
 * where rows_count is 0 (3). */
uint8_t bournejade_count_line(bournejade_state *state, const uint8_t *line, bournejade_size line_size, uint8_t *out,
                              bournejade_size out_size, bournejade_size *wrote, bournejade_row *rows,
                              bournejade_size rows_count);

/* Add an edition of the event prefix (0 to 32 octets), which holds from the frame of this number on, in its events and in
 * what sub-opcode 00 returns; earlier frames keep the edition that held at their numbers, also in a replay. An image
 * has the editions; one that was added after the image was saved is to be added again, in the same order, after the
 * restore and before replay reaches its number or ends. Refusals, in this order: 7, 15, 14, 13; the state is then as
 * it was, and a refused addition is not given again. */
uint8_t bournejade_add_edition(bournejade_state *state, uint32_t number, const uint8_t *prefix,
                               bournejade_size prefix_size);

/* Write the line of a frame, for the journal: 2 characters an octet and LF. Refusals: 3 (less than 527), 4 (not a
 * frame). */
uint8_t bournejade_write_line(const uint8_t *frame, bournejade_size frame_size, uint8_t *out,
                              bournejade_size out_size, bournejade_size *wrote);

/* Write the state's image, a text of lines, in format 4 (docs/FORMATS.md). Refusals: 7, 3. */
uint8_t bournejade_save(const bournejade_state *state, uint8_t *out, bournejade_size out_size,
                        bournejade_size *wrote);

/* Take the state of an image's text, all of it. 10 and the blank state where it is not the image of a sound state in
 * format 4; `bin/upgrade` makes one of an image of an earlier build. What stood in the state before does not matter. */
uint8_t bournejade_restore(bournejade_state *state, const uint8_t *image, bournejade_size image_size);

/* Walk the events of an answer, or of what a replay wrote: the index behind the event that begins at index at, or 0 where
 * no whole event begins there, as at the end. Never refused.
 *     for (at = 0; (next = bournejade_event(out, wrote, at)) != 0; at = next)
 *         send(out + at, next - at);
 * An answer is whole events, so the walk meets each once and in order, and ends behind the last. */
bournejade_size bournejade_event(const uint8_t *answer, bournejade_size answer_size, bournejade_size at);

/* Replay a piece of a journal: its whole lines, one after another, into one output. Lines that are seen (1) are
 * skipped. *taken is how many characters were read, *wrote how many octets of answers were written.
 *  - 0: all whole lines were read. Show what is behind *taken again, with more of the journal, in the next call.
 *  - 3: fewer than 2,880 octets of the output are left. Empty it and call again with the journal from *taken on. (An
 *    output of less than 2,880 octets never gets further.)
 *  - any other: the line at *taken was refused so, and replay stops there. What was read before it is executed, and its
 *    answers are in the output.
 * The state is checked once a call (7, with *taken and *wrote 0, where the piece has a whole line). */
uint8_t bournejade_replay(bournejade_state *state, const uint8_t *journal, bournejade_size journal_size,
                          uint8_t *out, bournejade_size out_size, bournejade_size *taken, bournejade_size *wrote);

/* Replay as far as a frame: as bournejade_replay, but a further line is read only while the position is below last. With it
 * a standby delivers each answer once (`docs/OPERATIONS.md`): up to the number of the last answer that the host has, and
 * the output is dropped; then up to the position + 1, and the output is the answer of that frame; and so on to the end.
 *  - 0: the position is last or more, with *taken behind the line of the frame that made it so (0 where it was so already:
 *    seen lines are not read then), or all whole lines were read. A next call goes on at *taken.
 *  - 3 and any other: as above. 7 only where the position that stands in the block is below last. */
uint8_t bournejade_replay_to(bournejade_state *state, uint32_t last, const uint8_t *journal,
                             bournejade_size journal_size, uint8_t *out, bournejade_size out_size,
                             bournejade_size *taken, bournejade_size *wrote);

/* Which monitors watch a device, for a service desk: address_type 0 public or 1 random, and the address as in a packet,
 * least significant octet first. Returns how many monitors have it under watch, 0 for none; *lowest is the lowest of their
 * handles, 0 where there is none. It reads the index in the state alone, and is never refused: of a state that is not
 * sound the first of at most 64 entries for that device answers. */
uint32_t bournejade_watchers(const bournejade_state *state, uint8_t address_type, const uint8_t (*address)[6],
                             uint32_t *lowest);

/* What a match costs, for a budget of work per packet: matches a pattern condition, as command 03 gives it (a count, then
 * patterns), against an advertisement and a scan response (size 0 where there is none). Returns 1 if it matches and 0
 * if not. *comparisons is how many octets of the condition were compared with octets of the two texts, AD types
 * included: at most 450 for a condition of at most 64 octets and an advertisement of at most 31, at most 900 with a
 * scan response of at most 31. Needs no state, and is never refused. */
uint8_t bournejade_match(const uint8_t *condition, bournejade_size condition_size, const uint8_t *adv,
                         bournejade_size adv_size, const uint8_t *scan, bournejade_size scan_size,
                         bournejade_size *comparisons);

/* The name of a refusal, for a log: the words behind its number above. */
static inline const char *bournejade_refusal_name(uint8_t number)
{
    switch (number) {
    case BOURNEJADE_DONE: return "done";
    case BOURNEJADE_SEEN: return "seen before";
    case BOURNEJADE_GAP: return "gap in the frame numbers";
    case BOURNEJADE_SHORT: return "output too short";
    case BOURNEJADE_NOT_A_LINE: return "not a line or not a frame";
    case BOURNEJADE_BAD_PAYLOAD: return "payload not of its kind's form";
    case BOURNEJADE_OTHER_OPCODE: return "another opcode";
    case BOURNEJADE_UNSOUND: return "state not sound";
    case BOURNEJADE_BAD_SETTINGS: return "settings out of range";
    case BOURNEJADE_NOT_AN_IMAGE: return "not an image of a sound state";
    case BOURNEJADE_TOTAL: return "a total would pass 64 bits";
    case BOURNEJADE_EDITIONS_FULL: return "no room for an edition";
    case BOURNEJADE_NOT_RISING: return "edition's number not rising or not above the position";
    case BOURNEJADE_LONG_PREFIX: return "edition's prefix too long";
    default: return "no refusal has this number";
    }
}

#ifdef __cplusplus
}
#endif

#endif
