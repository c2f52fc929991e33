/* A gateway over real files: files.c (system calls), link.c (the host), store.c, recover.c (the folder), gateway.c. */
#ifndef GATEWAY_H
#define GATEWAY_H

#define _POSIX_C_SOURCE 200809L
#include <bournejade.h>
#include <errno.h>
#include <inttypes.h>
#include <stdio.h>
#include <stdlib.h>
#include <string.h>
#include <unistd.h>

/* The settings; the most frames that are made durable together. */
enum { OPCODE = 0xFC1E, BATCH = 16 };
#define PREFIX "MS"

/* Exit statuses beside 0, the host closed the link: the files or the host's word do not fit, wrong usage, something
 * cannot be read or written, another writer has the folder. */
enum { BROKEN = 1, USAGE = 2, CANNOT = 3, BUSY = 4 };

/* Characters of a life's name, of a check sum's line, of a file's name; the most generations. */
enum { LIFE_SIZE = 16, SUM_SIZE = 17, NAME_SIZE = 64, KEPT = 64 };

/* files.c. Says why on standard error and ends the program. */
void stop(int status, const char *words, ...) __attribute__((noreturn, format(printf, 2, 3)));
int open_file(const char *name); /* to append; created where it is not there */
void write_all(int file, const char *name, const void *octets, size_t size);
void make_durable(int file, const char *name);
void write_anew(const char *name, const void *octets, size_t size); /* new name, durable, renamed, folder durable */
void cut_file(const char *name, size_t size);
void remove_file(const char *name);
char *read_file(const char *name, size_t *size); /* with a 0 behind it, to be freed; NULL: no such file */

/* link.c. Lines of the host, and lines to it, which gather until they are sent. */
char *link_line(void);  /* with a 0 for its LF; NULL at the end */
int link_waiting(void); /* has another line of the host come? */
void link_answer(uint32_t number, const uint8_t *answer, size_t size);
void link_life(const char *life, uint32_t position);
void link_send(void);

/*
 * store.c. The folder. A life begins at a reset and has a name; a generation is an image and the journal behind it.
 *   life                      the name of the present life
 *   LIFE.POSITION.image       the state after frame POSITION
 *   LIFE.POSITION.journal     the lines of the frames behind it
 *   LIFE.POSITION.sums        a check sum of the life's name and the image, then one for each line of the journal, each
 *                             going on from the one before. A line whose sum stands here is confirmed.
 *   lock                      held by the one writer
 */
struct store {
    bournejade_state state;
    char life[LIFE_SIZE + 1];
    uint32_t image;                              /* the position of the newest image */
    uint64_t sum;                                /* over the newest generation and what waits */
    int journal, sums;                           /* the newest generation, open */
    char lines[BATCH * BOURNEJADE_LINE_SIZE];    /* what waits to be made durable */
    char marks[BATCH * SUM_SIZE + 1];
    size_t lines_size, marks_size;
};

void name_of(char *name, const char *life, uint32_t position, const char *kind);
uint64_t sum_on(uint64_t sum, const void *octets, size_t size); /* FNV-1a: one changed octet always changes it */
void sum_text(char *text, uint64_t sum);
uint64_t sum_image(const char *life, const void *image, size_t size);
void store_lock(const char *folder, int wait); /* the one writer; wait: until the other is dead */
void store_reset(struct store *store);         /* a new life: its first generation, then its name */
void store_open(struct store *store);          /* goes on in the newest generation */
void store_line(struct store *store, const char *line, size_t size); /* an executed line waits */
void store_flush(struct store *store);         /* all that waits is made durable */
void store_image(struct store *store);         /* a new generation at the position */
/* The positions of the life's generations, oldest first, and their number (at most KEPT). Or, with NULL, all files of
 * other lives and of generations before a position are removed. */
size_t store_scan(const char *life, uint32_t from, uint32_t *positions);

/* recover.c. Takes the life up where it was left, and gives the host the answers above had. */
void recover(struct store *store, const char *life, uint32_t had);

#endif
