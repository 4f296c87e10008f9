/* Calls of the system that fail where faults.py says. It is loaded in front of the C library of the program that is tried, and is no part of
   the program. The environment says what happens, from main on:

     FAULTS_MEMORY=N    the Nth request for memory is refused; N.. refuses that and all later ones
     FAULTS_READ=N      the Nth read fails with EIO; N.. as above
     FAULTS_WRITE=N     the Nth write fails with ENOSPC; N.. as above
     FAULTS_OPEN=N      the Nth open fails with EMFILE; N.. as above
     FAULTS_RETRY=K     each opening, read and write is first interrupted K times (EINTR)
     FAULTS_MOST=K      a read or a write moves at most K bytes
     FAULTS_SIGNAL=1    SIGUSR1 has a handler that does nothing, and a call that it interrupts isn't begun again
     FAULTS_STACK=K     before main the stack grows to K bytes
     FAULTS_SPACE=K     then the address space may grow by K bytes, and no more, and memory is taken from the system a page at a time
     FAULTS_TELL=F      what came is told to the file descriptor F: "start", "grown" once the stack has
                        grown, and at the end the numbers of requests, reads, writes and opens */
#define _GNU_SOURCE
#include <errno.h>
#include <fcntl.h>
#include <malloc.h>
#include <signal.h>
#include <stdarg.h>
#include <stdio.h>
#include <stdlib.h>
#include <string.h>
#include <sys/resource.h>
#include <sys/syscall.h>
#include <unistd.h>

extern void *__libc_malloc(size_t);
extern void *__libc_calloc(size_t, size_t);
extern void *__libc_realloc(void *, size_t);

struct fault {
    unsigned long at, count;
    int on, error;
};

static struct fault memory = {.error = ENOMEM}, reads = {.error = EIO}, writes = {.error = ENOSPC}, opens = {.error = EMFILE};
static unsigned long retry, most, tell;
static int begun;

/* Counts a call, and answers whether it fails. */
static int fails(struct fault *f)
{
    if (!begun)
        return 0;
    f->count++;
    if (!f->at || (f->on ? f->count < f->at : f->count != f->at))
        return 0;
    errno = f->error;
    return 1;
}

static unsigned long number(const char *name)
{
    const char *text = getenv(name);
    return text ? strtoul(text, 0, 10) : 0;
}

static void order(struct fault *f, const char *name)
{
    const char *text = getenv(name);
    if (text) {
        f->at = strtoul(text, 0, 10);
        f->on = strstr(text, "..") != 0;
    }
}

static void nothing(int signal)
{
    (void)signal;
}

__attribute__((noinline)) static void grow(size_t bytes)
{
    volatile char room[4096];
    room[0] = room[4095] = 1;
    if (bytes > sizeof room)
        grow(bytes - sizeof room);
    room[1] = room[0];
}

static unsigned long pages_taken(void)
{
    char text[64] = {0};
    long file = syscall(SYS_openat, AT_FDCWD, "/proc/self/statm", O_RDONLY, 0);
    if (file < 0)
        return 0;
    long count = syscall(SYS_read, file, text, sizeof text - 1);
    syscall(SYS_close, file);
    return count > 0 ? strtoul(text, 0, 10) : 0;
}

__attribute__((constructor)) static void begin(void)
{
    order(&memory, "FAULTS_MEMORY");
    order(&reads, "FAULTS_READ");
    order(&writes, "FAULTS_WRITE");
    order(&opens, "FAULTS_OPEN");
    retry = number("FAULTS_RETRY");
    most = number("FAULTS_MOST");
    tell = number("FAULTS_TELL");
    if (getenv("FAULTS_SIGNAL")) {
        struct sigaction action = {.sa_handler = nothing};
        sigaction(SIGUSR1, &action, 0);
    }
    if (tell)
        syscall(SYS_write, tell, "start\n", 6);
    if (getenv("FAULTS_STACK"))
        grow(number("FAULTS_STACK"));
    if (tell)
        syscall(SYS_write, tell, "grown\n", 6);
    if (getenv("FAULTS_SPACE")) {
        unsigned long most_bytes = pages_taken() * sysconf(_SC_PAGESIZE) + number("FAULTS_SPACE");
        struct rlimit limit = {most_bytes, most_bytes};
        mallopt(M_TOP_PAD, 0);
        setrlimit(RLIMIT_AS, &limit);
    }
    begun = 1;
}

__attribute__((destructor)) static void end(void)
{
    char text[128];
    begun = 0;
    if (tell) {
        int length = snprintf(text, sizeof text, "%lu %lu %lu %lu\n", memory.count, reads.count, writes.count, opens.count);
        syscall(SYS_write, tell, text, length);
    }
}

void *malloc(size_t size)
{
    return fails(&memory) ? 0 : __libc_malloc(size);
}

void *calloc(size_t count, size_t size)
{
    return fails(&memory) ? 0 : __libc_calloc(count, size);
}

void *realloc(void *old, size_t size)
{
    return fails(&memory) ? 0 : __libc_realloc(old, size);
}

/* Whether a call is interrupted, as the next one of so many in a row. */
static int interrupted(unsigned long *row)
{
    if (!begun || *row >= retry) {
        *row = 0;
        return 0;
    }
    ++*row;
    errno = EINTR;
    return 1;
}

ssize_t read(int file, void *into, size_t size)
{
    static unsigned long row;
    if (interrupted(&row))
        return -1;
    if (fails(&reads))
        return -1;
    return syscall(SYS_read, file, into, begun && most && size > most ? most : size);
}

ssize_t write(int file, const void *from, size_t size)
{
    static unsigned long row;
    if (interrupted(&row))
        return -1;
    if (fails(&writes))
        return -1;
    return syscall(SYS_write, file, from, begun && most && size > most ? most : size);
}

int open(const char *name, int flags, ...)
{
    mode_t mode = 0;
    if (flags & O_CREAT) {
        va_list more;
        va_start(more, flags);
        mode = va_arg(more, mode_t);
        va_end(more);
    }
    static unsigned long row;
    if (interrupted(&row))
        return -1;
    return fails(&opens) ? -1 : (int)syscall(SYS_openat, AT_FDCWD, name, flags, mode);
}
