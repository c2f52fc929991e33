/*
 * Random sessions through the library: `cases DIR` reads the cases that `reference cases DIR ..` wrote, restores each
 * image, gives the additions, replays the journal and saves, and holds what `standby` would write of it to what is
 * expected. It says how many cases it compared and how many differ, and ends with 1 if any does. It uses standard C
 * alone, so that it runs wherever the library does.
 */
#include <bournejade.h>
#include <stdio.h>
#include <string.h>

enum { TEXT = 1 << 20, HEAD = 6, NAME = 512 };

static bournejade_state state;
static char image[TEXT], journal[TEXT], additions[TEXT], expected[TEXT], given[TEXT];
static uint8_t answers[TEXT];
static size_t given_size;

/* Reads DIR/INDEX.WHAT: its size, 0 where there is none. */
static size_t content(const char *dir, unsigned index, const char *what, char *text)
{
    char name[NAME];
    size_t size = 0;
    FILE *file;
    snprintf(name, sizeof name, "%s/%06u.%s", dir, index, what);
    file = fopen(name, "rb");
    if (file != NULL) {
        size = fread(text, 1, TEXT, file);
        fclose(file);
    }
    return size;
}

static void say_line(const uint8_t *octets, bournejade_size size)
{
    for (bournejade_size i = 0; i < size; i++)
        given_size += (size_t)sprintf(given + given_size, "%02X", octets[i]);
    given[given_size++] = '\n';
}

static void say_number(unsigned number)
{
    given_size += (size_t)sprintf(given + given_size, "%u\n", number);
}

/* The value of an upper-case hexadecimal digit, 16 for any other character. */
static unsigned digit(char c)
{
    static const char digits[] = "0123456789ABCDEF";
    const char *at = c == 0 ? NULL : strchr(digits, c);
    return at == NULL ? 16 : (unsigned)(at - digits);
}

/* Reads a line of so many characters: how many octets it has, 0 where it is none. */
static size_t read_line(const char *text, size_t size, uint8_t *octets)
{
    for (size_t i = 0; i < size / 2; i++) {
        unsigned high = digit(text[2 * i]), low = digit(text[2 * i + 1]);
        if (high > 15 || low > 15)
            return 0;
        octets[i] = (uint8_t)(16 * high + low);
    }
    return size % 2 == 0 && size / 2 <= BOURNEJADE_FRAME_SIZE ? size / 2 : 0;
}

/* Adds the edition of an A4 line: tag, number (least octet first), length, prefix. */
static unsigned add_one(const char *text, size_t size)
{
    static uint8_t line[TEXT];
    size_t n = read_line(text, size, line);
    uint32_t number;
    if (n < HEAD || line[0] != 0xA4 || line[HEAD - 1] != n - HEAD)
        return BOURNEJADE_NOT_A_LINE;
    number = line[1] | (uint32_t)line[2] << 8 | (uint32_t)line[3] << 16 | (uint32_t)line[4] << 24;
    return bournejade_add_edition(&state, number, line + HEAD, n - HEAD);
}

/* Adds the editions of whole lines, up to one that is refused. */
static unsigned add(const char *text, size_t size)
{
    unsigned number = 0;
    const char *end;
    while (number == 0 && (end = memchr(text, '\n', size)) != NULL) {
        number = add_one(text, (size_t)(end - text));
        size -= (size_t)(end + 1 - text);
        text = end + 1;
    }
    return number;
}

static void run(size_t image_size, size_t journal_size, size_t additions_size)
{
    bournejade_size taken = 0, wrote = 0, next;
    unsigned number;
    given_size = 0;
    if (bournejade_restore(&state, (const uint8_t *)image, image_size) != 0) {
        say_number(BOURNEJADE_NOT_AN_IMAGE);
        return;
    }
    number = add(additions, additions_size);
    if (number == 0)
        number = bournejade_replay(&state, (const uint8_t *)journal, journal_size, answers, sizeof answers, &taken,
                                   &wrote);
    for (bournejade_size at = 0; (next = bournejade_event(answers, wrote, at)) != 0; at = next)
        say_line(answers + at, next - at);
    bournejade_save(&state, (uint8_t *)given + given_size, sizeof given - given_size, &wrote);
    given_size += (size_t)wrote;
    if (number != 0)
        say_number(number);
}

int main(int count, char **words)
{
    unsigned index = 1, differ = 0;
    size_t size;
    if (count != 2)
        return 2;
    for (; (size = content(words[1], index, "expected", expected)) != 0; index++) {
        size_t image_size = content(words[1], index, "image", image);
        size_t journal_size = content(words[1], index, "journal", journal);
        run(image_size, journal_size, content(words[1], index, "additions", additions));
        if (given_size != size || memcmp(given, expected, size) != 0) {
            differ++;
            printf("case %06u differs\n", index);
        }
    }
    printf("%u cases, %u differ\n", index - 1, differ);
    return differ != 0 || index == 1;
}
