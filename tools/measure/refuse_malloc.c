/* A malloc that refuses each request in turn. At each request the process makes two copies of itself:
   one is refused this request alone, the other this one and every later one. Each copy goes on to its
   end before the process does; it prints its answer, and one that is stopped is reported.
   cc -shared -fPIC -O2 -o refuse_malloc.so refuse_malloc.c; LD_PRELOAD=./refuse_malloc.so PROGRAM
   After the first 200 requests only each 31st is refused, so that a long case ends. How many there were and how many
   were refused goes to standard error at the end. */
#define _GNU_SOURCE
#include <dlfcn.h>
#include <stdint.h>
#include <stdio.h>
#include <stdlib.h>
#include <string.h>
#include <sys/mman.h>
#include <sys/wait.h>
#include <unistd.h>

enum { FIRST = 200, STEP = 31, OUT_OF_MEMORY = 3 };
extern void *__libc_malloc(size_t), *__libc_calloc(size_t, size_t), *__libc_realloc(void *, size_t);
static void *(*own_malloc)(size_t) = __libc_malloc;
static void *(*own_calloc)(size_t, size_t) = __libc_calloc;
static void *(*own_realloc)(void *, size_t) = __libc_realloc;
static int is_copy, refuses_all;
static long requests, refused;

/* Whether a copy went on to its end: it printed its answer, and its status is 0, or 3 where that is out of memory. */
static int has_ended(int status) {
    return WIFEXITED(status) && (WEXITSTATUS(status) == 0 || WEXITSTATUS(status) == OUT_OF_MEMORY);
}

static int is_refused(void) {
    if (is_copy) return refuses_all;
    requests++;
    if (requests > FIRST && requests % STEP != 0) return 0;
    refused++;
    for (int all = 0; all < 2; all++) {
        int status;
        pid_t copy = fork();
        if (copy == 0) return is_copy = 1, refuses_all = all, 1;
        if (copy < 0 || waitpid(copy, &status, 0) < 0 || !has_ended(status)) dprintf(1, "stopped\n");
    }
    return 0;
}

static void *taken(size_t size) { return is_refused() ? NULL : own_malloc(size); }
static void *cleared(size_t n, size_t size) { return is_refused() ? NULL : own_calloc(n, size); }
static void *moved(void *p, size_t size) { return is_refused() ? NULL : own_realloc(p, size); }

void *malloc(size_t size) __attribute__((alias("taken")));
void *calloc(size_t n, size_t size) __attribute__((alias("cleared")));
void *realloc(void *p, size_t size) __attribute__((alias("moved")));

/* What `rt try` builds has a malloc of its own, which is one jump to a malloc that checks. Where there is one, makes
   it jump to `to`, by way of a page that is near enough, and leaves in `own` where it went. */
static void turn(const char *name, void *to, void *own) {
    enum { NEAR = 1 << 28, ALL = PROT_READ | PROT_WRITE | PROT_EXEC };
    unsigned char *jump = dlsym(RTLD_DEFAULT, name), *page = MAP_FAILED;
    uintptr_t size = sysconf(_SC_PAGESIZE), at = (uintptr_t)jump & -size, place = at + NEAR;
    int32_t way;
    if ((void *)jump == to) return;
    for (int flags = MAP_PRIVATE | MAP_ANONYMOUS | MAP_FIXED_NOREPLACE; page == MAP_FAILED; place += size)
        page = mmap((void *)place, size, ALL, flags, -1, 0);
    if (*jump != 0xe9 || mprotect((void *)at, 2 * size, ALL) != 0) abort();
    memcpy(&way, jump + 1, 4);
    *(void **)own = jump + 5 + way;
    memcpy(page, "\xff\x25\0\0\0\0", 6);
    memcpy(page + 6, &to, 8);
    way = (int32_t)(page - jump - 5);
    memcpy(jump + 1, &way, 4);
}

__attribute__((constructor)) static void start(void) {
    turn("malloc", taken, &own_malloc);
    turn("calloc", cleared, &own_calloc);
    turn("realloc", moved, &own_realloc);
}

__attribute__((destructor)) static void end(void) {
    if (!is_copy) dprintf(2, "%ld %ld\n", requests, refused);
}
