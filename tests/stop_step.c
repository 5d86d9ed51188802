/* Stops a program at a change of files: at the call whose number STOPPED_STEP has, counting from 1, of those that write to a file,
   make, rename or remove one. With STOPPED_HOW=kill the process is killed before the call, with `refuse` the call fails, and with
   `wait` it waits until the file WAITED_FILE is gone. Writes the number of all such calls to the file that COUNTS_FILE names. It is
   loaded before the C library, and belongs to no crate. */
#define _GNU_SOURCE
#include <dlfcn.h>
#include <errno.h>
#include <fcntl.h>
#include <signal.h>
#include <stdarg.h>
#include <stdio.h>
#include <stdlib.h>
#include <string.h>
#include <sys/stat.h>
#include <time.h>
#include <unistd.h>

static long steps;

/* Whether this call is refused. */
static int is_stopped(void)
{
    const char *number = getenv("STOPPED_STEP"), *how = getenv("STOPPED_HOW");
    steps += 1;
    if (!number || !how || steps != atol(number))
        return 0;
    if (strcmp(how, "kill") == 0)
        kill(getpid(), SIGKILL);
    if (strcmp(how, "wait") == 0) {
        struct timespec moment = {0, 1000000};
        while (access(getenv("WAITED_FILE"), F_OK) == 0)
            nanosleep(&moment, NULL);
        return 0;
    }
    errno = EIO;
    return 1;
}

#define NEXT(type, name, ...) ((type (*)(__VA_ARGS__))dlsym(RTLD_NEXT, #name))

ssize_t write(int fd, const void *bytes, size_t size)
{
    return fd > 2 && is_stopped() ? -1 : NEXT(ssize_t, write, int, const void *, size_t)(fd, bytes, size);
}

int open(const char *path, int flags, ...)
{
    va_list rest;
    va_start(rest, flags);
    mode_t mode = flags & O_CREAT ? va_arg(rest, mode_t) : 0;
    va_end(rest);
    return flags & O_CREAT && is_stopped() ? -1 : NEXT(int, open, const char *, int, ...)(path, flags, mode);
}

int mkdir(const char *path, mode_t mode)
{
    return is_stopped() ? -1 : NEXT(int, mkdir, const char *, mode_t)(path, mode);
}

int rename(const char *from, const char *to)
{
    return is_stopped() ? -1 : NEXT(int, rename, const char *, const char *)(from, to);
}

int rmdir(const char *path)
{
    return is_stopped() ? -1 : NEXT(int, rmdir, const char *)(path);
}

int unlink(const char *path)
{
    return is_stopped() ? -1 : NEXT(int, unlink, const char *)(path);
}

int unlinkat(int folder, const char *path, int flags)
{
    return is_stopped() ? -1 : NEXT(int, unlinkat, int, const char *, int)(folder, path, flags);
}

__attribute__((destructor)) static void write_count(void)
{
    const char *name = getenv("COUNTS_FILE");
    FILE *file = name ? fopen(name, "w") : NULL;
    if (file) {
        fprintf(file, "%ld\n", steps);
        fclose(file);
    }
}
