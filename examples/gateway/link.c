/* The host: standard input and output. For a socket, start the program by one that listens and connects both. */
#include "gateway.h"
#include <poll.h>

static char in[4096], out[1 << 17];
static size_t in_from, in_size, out_size;

/* Reads what has come behind what is not taken yet; 0 at the end. */
static size_t fill(void)
{
    ssize_t got;
    memmove(in, in + in_from, in_size - in_from);
    in_size -= in_from;
    in_from = 0;
    if (in_size == sizeof in)
        stop(BROKEN, "the host's line is longer than any");
    do {
        got = read(STDIN_FILENO, in + in_size, sizeof in - in_size);
    } while (got < 0 && errno == EINTR);
    in_size += got < 0 ? 0 : (size_t)got;
    return got < 0 ? 0 : (size_t)got;
}

static char *line_end(void)
{
    return memchr(in + in_from, '\n', in_size - in_from);
}

char *link_line(void)
{
    char *line, *end;
    while ((end = line_end()) == NULL)
        if (fill() == 0)
            return NULL;
    line = in + in_from;
    *end = 0;
    in_from = (size_t)(end + 1 - in);
    return line;
}

int link_waiting(void)
{
    struct pollfd host = {.fd = STDIN_FILENO, .events = POLLIN};
    if (line_end() == NULL && poll(&host, 1, 0) > 0)
        fill();
    return line_end() != NULL;
}

void link_answer(uint32_t number, const uint8_t *answer, size_t size)
{
    if (sizeof out - out_size < 2 * size + 16)
        link_send();
    out_size += (size_t)sprintf(out + out_size, "%" PRIu32 " ", number);
    for (size_t i = 0; i < size; i++)
        out_size += (size_t)sprintf(out + out_size, "%02X", answer[i]);
    out[out_size++] = '\n';
}

void link_life(const char *life, uint32_t position)
{
    link_send();
    out_size = (size_t)sprintf(out, "LIFE %s %" PRIu32 "\n", life, position);
    link_send();
}

void link_send(void)
{
    write_all(STDOUT_FILENO, "the host", out, out_size);
    out_size = 0;
}
