/* Hexadecimal lines and numbers, read and written by the harness itself. */
#ifndef TEXTS_H
#define TEXTS_H

#include <stddef.h>
#include <stdint.h>

/* Writes the line of so many octets, of any length: two characters an octet and LF. */
size_t line_of(const uint8_t *octets, size_t size, uint8_t *line);

/* Reads the octets of a line; whether it is one. */
int octets_of(const uint8_t *line, size_t size, uint8_t *octets);

/* A number of four octets, least first. */
uint32_t number_in(const uint8_t *octets);

#endif
