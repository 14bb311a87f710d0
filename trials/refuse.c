/* refuse.c: is loaded before the C library, and refuses one call of a program.
 *
 * REFUSED=memory:N    the Nth call for memory gives none; REFUSED=all-memory:N: neither does any later one
 * REFUSED=read:N      the Nth read fails; REFUSED=write:N: the Nth write
 * REFUSED=reads:N     each read gives N bytes at most; REFUSED=writes:N: each write takes N at most
 * REFUSED=interrupted:N   a signal interrupts each read and each write but every Nth
 *                     several of these have commas between them
 * COUNTED=FILE        holds three numbers of 8 bytes: how often it called for memory, read and wrote
 */
#define _GNU_SOURCE
#include <errno.h>
#include <fcntl.h>
#include <stdatomic.h>
#include <stdlib.h>
#include <string.h>
#include <sys/mman.h>
#include <sys/syscall.h>
#include <unistd.h>

extern void *__libc_malloc(size_t), *__libc_calloc(size_t, size_t), *__libc_realloc(void *, size_t), *__libc_memalign(size_t, size_t);

enum { MEMORY, READ, WRITE, KINDS };
static atomic_long own[KINDS], *counted = own;
static atomic_long turns;
static long refused[KINDS], most[KINDS], all_from, made;
static int is_on;

static void take(const char *what, const char *name, long *to) {
    size_t length = strlen(name);
    for (; what; what = strchr(what, ',') ? strchr(what, ',') + 1 : NULL)
        if (!strncmp(what, name, length) && what[length] == ':')
            *to = atol(what + length + 1);
}

__attribute__((constructor)) static void begin(void) {
    const char *what = getenv("REFUSED");
    if (what) {
        take(what, "memory", &refused[MEMORY]);
        take(what, "all-memory", &all_from);
        take(what, "read", &refused[READ]);
        take(what, "write", &refused[WRITE]);
        take(what, "reads", &most[READ]);
        take(what, "writes", &most[WRITE]);
        take(what, "interrupted", &made);
    }
    const char *path = getenv("COUNTED");
    int file = path ? open(path, O_RDWR) : -1;
    if (file >= 0) {
        /* (the program may end without a word to its libraries) */
        void *at = mmap(NULL, sizeof own, PROT_READ | PROT_WRITE, MAP_SHARED, file, 0);
        if (at != MAP_FAILED)
            counted = at;
        close(file);
    }
    is_on = 1;
}

static int is_refused(int kind) {
    long number = is_on ? atomic_fetch_add(&counted[kind], 1) + 1 : 0;
    return number && (number == refused[kind] || (kind == MEMORY && all_from && number >= all_from));
}

static void *none(void) {
    errno = ENOMEM;
    return NULL;
}

void *malloc(size_t size) { return is_refused(MEMORY) ? none() : __libc_malloc(size); }
void *calloc(size_t count, size_t size) { return is_refused(MEMORY) ? none() : __libc_calloc(count, size); }
void *realloc(void *old, size_t size) { return is_refused(MEMORY) ? none() : __libc_realloc(old, size); }
void *memalign(size_t align, size_t size) { return is_refused(MEMORY) ? none() : __libc_memalign(align, size); }
void *aligned_alloc(size_t align, size_t size) { return memalign(align, size); }

int posix_memalign(void **to, size_t align, size_t size) {
    void *made = memalign(align, size);
    if (!made)
        return ENOMEM;
    *to = made;
    return 0;
}

static ssize_t moved(int kind, long number, int file, void *at, size_t count) {
    if (is_on && made && (atomic_fetch_add(&turns, 1) + 1) % made) {
        errno = EINTR;
        return -1;
    }
    if (is_refused(kind)) {
        errno = EIO;
        return -1;
    }
    return syscall(number, file, at, is_on && most[kind] && count > (size_t)most[kind] ? (size_t)most[kind] : count);
}

ssize_t read(int file, void *to, size_t count) { return file == 0 ? moved(READ, SYS_read, file, to, count) : syscall(SYS_read, file, to, count); }
ssize_t write(int file, const void *from, size_t count) { return file == 1 ? moved(WRITE, SYS_write, file, (void *)from, count) : syscall(SYS_write, file, from, count); }
ssize_t __write(int file, const void *from, size_t count) { return write(file, from, count); }
