/* System calls on files; what fails ends the program. */
#include "gateway.h"
#include <fcntl.h>
#include <stdarg.h>
#include <sys/stat.h>

void stop(int status, const char *words, ...)
{
    va_list list;
    va_start(list, words);
    vfprintf(stderr, words, list);
    va_end(list);
    fputc('\n', stderr);
    exit(status);
}

static int done(int result, const char *name)
{
    if (result < 0)
        stop(CANNOT, "%s: %s", name, strerror(errno));
    return result;
}

int open_file(const char *name)
{
    return done(open(name, O_WRONLY | O_CREAT | O_APPEND, 0644), name);
}

void write_all(int file, const char *name, const void *octets, size_t size)
{
    const char *at = octets;
    while (size > 0) {
        ssize_t wrote = write(file, at, size);
        done(wrote < 0 && errno != EINTR ? -1 : 0, name);
        at += wrote < 0 ? 0 : wrote;
        size -= wrote < 0 ? 0 : (size_t)wrote;
    }
}

void make_durable(int file, const char *name)
{
    done(fsync(file), name);
}

void write_anew(const char *name, const void *octets, size_t size)
{
    char fresh[NAME_SIZE + 4];
    int file, folder;
    snprintf(fresh, sizeof fresh, "%s.new", name);
    file = open_file(fresh);
    done(ftruncate(file, 0), fresh);
    write_all(file, fresh, octets, size);
    make_durable(file, fresh);
    close(file);
    done(rename(fresh, name), name);
    folder = done(open(".", O_RDONLY), "the folder");
    make_durable(folder, "the folder");
    close(folder);
}

void cut_file(const char *name, size_t size)
{
    int file = open_file(name);
    done(ftruncate(file, (off_t)size), name);
    make_durable(file, name);
    close(file);
}

void remove_file(const char *name)
{
    done(unlink(name), name);
}

char *read_file(const char *name, size_t *size)
{
    struct stat facts;
    ssize_t got = 1;
    char *text;
    int file = open(name, O_RDONLY);
    *size = 0;
    if (file < 0 && errno == ENOENT)
        return NULL;
    done(file < 0 ? -1 : fstat(file, &facts), name);
    text = malloc((size_t)facts.st_size + 1);
    done(text == NULL ? -1 : 0, name);
    for (; got > 0 && *size < (size_t)facts.st_size; *size += (size_t)got)
        got = done((int)read(file, text + *size, (size_t)facts.st_size - *size), name);
    text[*size] = 0;
    close(file);
    return text;
}
