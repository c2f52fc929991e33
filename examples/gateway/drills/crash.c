/*
 * Loaded before the gateway (LD_PRELOAD), so that the very program is tried. It dies before its system call number
 * GATEWAY_DIE (of those that change files or speak to the host), or with GATEWAY_TEAR in the middle of it, where it
 * writes. With GATEWAY_POWER=SEED the power fails too: what was written to a file since its last fsync is lost from a
 * random place on, or reads as zeros.
 */
#define _GNU_SOURCE
#include <fcntl.h>
#include <signal.h>
#include <stdarg.h>
#include <stdio.h>
#include <stdlib.h>
#include <string.h>
#include <sys/stat.h>
#include <sys/syscall.h>
#include <unistd.h>

enum { FILES = 1024 };

static struct {
    char path[128];
    off_t durable;
} files[FILES];
static int of[FILES], used = 1; /* a descriptor's file; 0: none */

static int find(const char *path)
{
    for (int i = 1; i < used; i++)
        if (strcmp(files[i].path, path) == 0)
            return i;
    return 0;
}

static off_t size_of(int fd)
{
    struct stat facts;
    return fstat(fd, &facts) == 0 ? facts.st_size : 0;
}

/* What was not made durable of one file. */
static void lose(const char *path, off_t durable)
{
    struct stat facts;
    off_t kept;
    if (stat(path, &facts) != 0 || facts.st_size <= durable)
        return;
    kept = durable + rand() % (facts.st_size - durable + 1);
    if (truncate(path, kept) == 0 && rand() % 2 == 0 && truncate(path, facts.st_size) != 0)
        abort();
}

static void die(void)
{
    const char *seed = getenv("GATEWAY_POWER");
    if (seed != NULL) {
        srand((unsigned)atol(seed));
        for (int i = 1; i < used; i++)
            lose(files[i].path, files[i].durable);
    }
    kill(getpid(), SIGKILL);
}

static int due(void)
{
    static long calls;
    const char *at = getenv("GATEWAY_DIE");
    return at != NULL && ++calls == atol(at);
}

int open(const char *path, int flags, ...)
{
    va_list list;
    mode_t mode;
    int fd;
    va_start(list, flags);
    mode = flags & O_CREAT ? va_arg(list, mode_t) : 0;
    va_end(list);
    if (flags & O_CREAT && due())
        die();
    fd = (int)syscall(SYS_openat, AT_FDCWD, path, flags, mode);
    if (fd < 0 || fd >= FILES || used == FILES)
        return fd;
    of[fd] = flags & O_CREAT ? find(path) : 0;
    if (flags & O_CREAT && of[fd] == 0) {
        of[fd] = used++;
        snprintf(files[of[fd]].path, sizeof files->path, "%s", path);
        files[of[fd]].durable = size_of(fd);
    }
    return fd;
}

ssize_t write(int fd, const void *octets, size_t size)
{
    if (due()) {
        if (getenv("GATEWAY_TEAR") != NULL && syscall(SYS_write, fd, octets, size / 2) < 0)
            abort();
        die();
    }
    return syscall(SYS_write, fd, octets, size);
}

int fsync(int fd)
{
    if (due())
        die();
    if (fd < FILES)
        files[of[fd]].durable = size_of(fd);
    return (int)syscall(SYS_fsync, fd);
}

int ftruncate(int fd, off_t size)
{
    if (due())
        die();
    if (fd < FILES && files[of[fd]].durable > size)
        files[of[fd]].durable = size;
    return (int)syscall(SYS_ftruncate, fd, size);
}

int rename(const char *from, const char *to)
{
    if (due())
        die();
    files[find(to)].path[0] = 0;
    snprintf(files[find(from)].path, sizeof files->path, "%s", to);
    files[0].path[0] = 0;
    return (int)syscall(SYS_rename, from, to);
}

int unlink(const char *path)
{
    if (due())
        die();
    files[find(path)].path[0] = 0;
    files[0].path[0] = 0;
    return (int)syscall(SYS_unlink, path);
}
