/* Memory for the buffers of a call, with pages without access beside it: see areas.h. */
#define _GNU_SOURCE
#include "areas.h"
#include <stdio.h>
#include <stdlib.h>
#include <string.h>
#include <sys/mman.h>
#include <unistd.h>

/* So many octets beside a buffer are filled and looked at. */
enum { BESIDE = 512 };

static void need(int holds, const char *words)
{
    if (!holds) {
        perror(words);
        exit(2);
    }
}

/* An address at which the file's pages stand with this access, one page without access on either side. */
static uint8_t *guarded(int file, size_t size, int access)
{
    size_t page = (size_t)sysconf(_SC_PAGESIZE);
    uint8_t *all = mmap(NULL, size + 2 * page, PROT_NONE, MAP_PRIVATE | MAP_ANONYMOUS, -1, 0);
    need(all != MAP_FAILED, "no room for an area");
    need(mmap(all + page, size, access, MAP_SHARED | MAP_FIXED, file, 0) != MAP_FAILED, "an area is not mapped");
    return all + page;
}

void make_area(struct area *a, size_t pages)
{
    int file = memfd_create("area", 0);
    a->size = pages * (size_t)sysconf(_SC_PAGESIZE);
    need(file >= 0 && ftruncate(file, (off_t)a->size) == 0, "no memory for an area");
    a->start = guarded(file, a->size, PROT_READ | PROT_WRITE);
    a->view = guarded(file, a->size, PROT_READ);
    close(file);
}

uint8_t *place(const struct area *a, size_t size, int at_end)
{
    return at_end ? a->start + a->size - size : a->start;
}

const uint8_t *readable(const struct area *a, const uint8_t *buffer)
{
    return a->view + (buffer - a->start);
}

/* How much of an area stands before a buffer and behind it, as far as it is filled and looked at. */
static size_t before(const struct area *a, const uint8_t *buffer)
{
    size_t room = (size_t)(buffer - a->start);
    return room < BESIDE ? room : BESIDE;
}

static size_t behind(const struct area *a, const uint8_t *buffer, size_t size)
{
    size_t room = a->size - size - (size_t)(buffer - a->start);
    return room < BESIDE ? room : BESIDE;
}

void fill(const struct area *a, uint8_t *buffer, size_t size, uint8_t filler)
{
    size_t first = before(a, buffer);
    memset(buffer - first, filler, first + size + behind(a, buffer, size));
}

/* Whether so many octets are the same one. */
static int all(const uint8_t *octets, size_t size, uint8_t filler)
{
    uint8_t differs = 0;
    for (size_t i = 0; i < size; i++)
        differs |= octets[i] ^ filler;
    return differs == 0;
}

int untouched(const struct area *a, const uint8_t *buffer, size_t size, size_t past, uint8_t filler)
{
    size_t first = before(a, buffer);
    return all(buffer - first, first, filler) &&
           all(buffer + past, size - past + behind(a, buffer, size), filler);
}
