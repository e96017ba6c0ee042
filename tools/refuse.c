/* Refuses one growth of memory, one read, one write or one start of a thread of a program, and cuts reads and writes
   into pieces. Laid over the C library by tools/hostile_faults.py; never a part of a program. */
#define _GNU_SOURCE
#include <dlfcn.h>
#include <errno.h>
#include <pthread.h>
#include <stdatomic.h>
#include <stdio.h>
#include <stdlib.h>
#include <string.h>
#include <sys/syscall.h>
#include <unistd.h>

enum { GROWTH, READ, WRITE, THREAD, KINDS };
static const char *const names[KINDS] = { "REFUSE_GROWTH", "REFUSE_READ", "REFUSE_WRITE", "REFUSE_THREAD" };
static atomic_long calls[KINDS];
static long refused[KINDS];
static size_t piece;
static int counting;
static long told;

static long number(const char *name)
{
    const char *text = getenv(name);
    return text ? strtol(text, NULL, 10) : 0;
}

__attribute__((constructor)) static void begin(void)
{
    for (int kind = 0; kind < KINDS; kind++)
        refused[kind] = number(names[kind]);
    piece = (size_t)number("REFUSE_PIECE");
    told = number("REFUSE_TELL");
    counting = 1;
}

/* Whether this call is the one that is refused. */
static int refuses(int kind)
{
    return counting && atomic_fetch_add(&calls[kind], 1) + 1 == refused[kind];
}

/* At the end the counts of calls go to the file descriptor that REFUSE_TELL names. */
__attribute__((destructor)) static void end(void)
{
    char text[128];
    int length = snprintf(text, sizeof text, "%ld %ld %ld %ld\n",
                          calls[GROWTH], calls[READ], calls[WRITE], calls[THREAD]);
    syscall(SYS_write, told, text, (size_t)length);
}

void _exit(int status)
{
    end();
    for (;;)
        syscall(SYS_exit_group, status);
}

extern void *__libc_malloc(size_t);
extern void *__libc_realloc(void *, size_t);

void *malloc(size_t size)
{
    if (refuses(GROWTH)) {
        errno = ENOMEM;
        return NULL;
    }
    return __libc_malloc(size);
}

void *realloc(void *old, size_t size)
{
    if (refuses(GROWTH)) {
        errno = ENOMEM;
        return NULL;
    }
    return __libc_realloc(old, size);
}

static size_t cut(size_t size)
{
    return piece && size > piece ? piece : size;
}

ssize_t read(int fd, void *into, size_t size)
{
    if (fd != 0)
        return syscall(SYS_read, fd, into, size);
    if (refuses(READ)) {
        errno = EIO;
        return -1;
    }
    return syscall(SYS_read, fd, into, cut(size));
}

ssize_t write(int fd, const void *from, size_t size)
{
    if (fd != 1)
        return syscall(SYS_write, fd, from, size);
    if (refuses(WRITE)) {
        errno = EIO;
        return -1;
    }
    return syscall(SYS_write, fd, from, cut(size));
}

int pthread_create(pthread_t *thread, const pthread_attr_t *how, void *(*run)(void *), void *with)
{
    static int (*real)(pthread_t *, const pthread_attr_t *, void *(*)(void *), void *);
    if (!real)
        real = (int (*)(pthread_t *, const pthread_attr_t *, void *(*)(void *), void *))
            dlsym(RTLD_NEXT, "pthread_create");
    if (refuses(THREAD))
        return EAGAIN;
    return real(thread, how, run, with);
}
