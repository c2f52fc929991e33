/* Hexadecimal lines and numbers, read and written by the harness itself: see texts.h. */
#include "texts.h"

size_t line_of(const uint8_t *octets, size_t size, uint8_t *line)
{
    static const char digits[] = "0123456789ABCDEF";
    for (size_t i = 0; i < size; i++) {
        line[2 * i] = (uint8_t)digits[octets[i] >> 4];
        line[2 * i + 1] = (uint8_t)digits[octets[i] & 15];
    }
    line[2 * size] = '\n';
    return 2 * size + 1;
}

/* The value of an upper-case hexadecimal digit, 16 of any other character. */
static unsigned digit(uint8_t letter)
{
    if (letter >= '0' && letter <= '9')
        return letter - (unsigned)'0';
    return letter >= 'A' && letter <= 'F' ? letter - (unsigned)'A' + 10 : 16;
}

int octets_of(const uint8_t *line, size_t size, uint8_t *octets)
{
    if (size % 2 == 0 || line[size - 1] != '\n')
        return 0;
    for (size_t i = 0; i < size / 2; i++) {
        unsigned high = digit(line[2 * i]), low = digit(line[2 * i + 1]);
        if (high > 15 || low > 15)
            return 0;
        octets[i] = (uint8_t)(high << 4 | low);
    }
    return 1;
}

uint32_t number_in(const uint8_t *octets)
{
    return octets[0] | (uint32_t)octets[1] << 8 | (uint32_t)octets[2] << 16 | (uint32_t)octets[3] << 24;
}
