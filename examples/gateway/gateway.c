/*
 * gateway FOLDER [FRAMES]: a gateway over files, with an image every so many frames (1000). gateway -s FOLDER [FRAMES]:
 * its standby, which waits until the gateway is dead and goes on in its place. README.md says what the host says.
 */
#include "gateway.h"
#include <signal.h>

static struct store store;

/* Makes the lines that wait durable, and only then gives the host their answers. */
static void flush(void)
{
    if (store.lines_size == 0)
        return;
    store_flush(&store);
    link_send();
}

/* Executes one frame of the host or the radio: kind and payload; the number is put between them. */
static void give(const char *line)
{
    static uint8_t answer[BOURNEJADE_ANSWER_SIZE];
    char text[BOURNEJADE_LINE_SIZE + 1];
    uint32_t n = bournejade_position(&store.state) + 1;
    size_t size = strlen(line);
    bournejade_size wrote;
    uint8_t refusal = BOURNEJADE_NOT_A_LINE;
    if (size >= 2 && size + 9 <= BOURNEJADE_LINE_SIZE) {
        sprintf(text, "%.2s%02X%02X%02X%02X%s\n", line, n & 255U, n >> 8 & 255U, n >> 16 & 255U, n >> 24, line + 2);
        refusal = bournejade_submit_line(&store.state, (const uint8_t *)text, size + 9, answer, sizeof answer, &wrote);
    }
    if (refusal == BOURNEJADE_SEEN)
        stop(BROKEN, "the frame numbers are used up; the host must reset");
    if (refusal != 0) {
        fprintf(stderr, "refused by %u: %s\n", refusal, line);
        return;
    }
    store_line(&store, text, size + 9);
    link_answer(n, answer, (size_t)wrote);
}

/* The host's first line: RESET, or HAVE LIFE NUMBER: the last answer that it has. Gives the line to go on with. */
static char *take_up(char *line)
{
    char life[LIFE_SIZE + 1];
    uint32_t had;
    if (line == NULL || strcmp(line, "RESET") == 0)
        return line;
    if (sscanf(line, "HAVE %16s %" SCNu32, life, &had) != 2)
        stop(USAGE, "the host's first line is RESET, or HAVE LIFE NUMBER");
    recover(&store, life, had);
    link_life(store.life, bournejade_position(&store.state));
    return link_line();
}

static void serve(char *line, uint32_t frames)
{
    for (; line != NULL; line = link_line()) {
        if (strcmp(line, "RESET") == 0) {
            flush();
            store_reset(&store);
            link_life(store.life, 0);
        } else {
            give(line);
        }
        if (store.marks_size == BATCH * SUM_SIZE || !link_waiting())
            flush();
        if (bournejade_position(&store.state) - store.image >= frames) {
            uint32_t before = store.image;
            flush();
            store_image(&store);
            store_scan(store.life, before, NULL);
        }
    }
    flush();
}

int main(int argc, char **argv)
{
    int standby = argc > 1 && strcmp(argv[1], "-s") == 0;
    char **words = argv + 1 + standby;
    uint32_t frames = words[0] != NULL && words[1] != NULL ? (uint32_t)strtoul(words[1], NULL, 10) : 1000;
    if (argc - standby < 2 || argc - standby > 3 || frames == 0)
        stop(USAGE, "usage: gateway [-s] FOLDER [FRAMES]");
    if (bournejade_version() != BOURNEJADE_VERSION || bournejade_state_size() != sizeof store.state ||
        bournejade_answer_size() != BOURNEJADE_ANSWER_SIZE || bournejade_image_size() != BOURNEJADE_IMAGE_SIZE ||
        bournejade_line_size() != BOURNEJADE_LINE_SIZE)
        stop(USAGE, "the library is not this header's");
    signal(SIGPIPE, SIG_IGN);
    store_lock(words[0], standby);
    serve(take_up(link_line()), frames);
    return 0;
}
