/* Preloaded before a program of one thread: refuses its request for memory number REFUSE, counted from 1, and with
 * REFUSE_ALL each request from there on. At the end it writes how many requests there were to the file REFUSE_SAYS. */
#define _GNU_SOURCE
#include <errno.h>
#include <fcntl.h>
#include <stdio.h>
#include <stdlib.h>
#include <unistd.h>

extern void *__libc_malloc(size_t);
extern void *__libc_calloc(size_t, size_t);
extern void *__libc_realloc(void *, size_t);
extern void *__libc_memalign(size_t, size_t);

static unsigned long requests, refused;
static int all, is_ready;

static int is_refused(void) {
    if (!is_ready) {
        const char *number = getenv("REFUSE");
        refused = number ? strtoul(number, NULL, 10) : 0;
        all = getenv("REFUSE_ALL") != NULL;
        is_ready = 1;
    }
    requests++;
    if (refused != 0 && (requests == refused || (requests > refused && all))) {
        errno = ENOMEM;
        return 1;
    }
    return 0;
}

void *malloc(size_t size) { return is_refused() ? NULL : __libc_malloc(size); }
void *calloc(size_t count, size_t size) { return is_refused() ? NULL : __libc_calloc(count, size); }
void *realloc(void *block, size_t size) { return is_refused() ? NULL : __libc_realloc(block, size); }
void *aligned_alloc(size_t alignment, size_t size) { return is_refused() ? NULL : __libc_memalign(alignment, size); }

int posix_memalign(void **block, size_t alignment, size_t size) {
    *block = is_refused() ? NULL : __libc_memalign(alignment, size);
    return *block ? 0 : ENOMEM;
}

__attribute__((destructor)) static void tell(void) {
    const char *name = getenv("REFUSE_SAYS");
    char line[32];
    int length = snprintf(line, sizeof line, "%lu\n", requests);
    int file = name ? open(name, O_WRONLY | O_CREAT | O_TRUNC, 0600) : -1;
    if (file >= 0 && length > 0) {
        (void)!write(file, line, (size_t)length);
    }
}
