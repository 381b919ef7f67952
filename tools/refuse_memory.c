// Loaded before a program: counts its calls of malloc, calloc and realloc, and refuses some.
//
// REFUSE_FIRST and REFUSE_LAST are the numbers of the first and the last call that is refused,
// counted from 1; without them none is. REFUSE_COUNT names a file of 8 bytes that holds the count.
#include <errno.h>
#include <fcntl.h>
#include <stdatomic.h>
#include <stddef.h>
#include <stdlib.h>
#include <sys/mman.h>
#include <unistd.h>

extern void *__libc_malloc(size_t);
extern void *__libc_calloc(size_t, size_t);
extern void *__libc_realloc(void *, size_t);

static _Atomic unsigned long early;
static _Atomic unsigned long *count = &early;
static unsigned long first = 0, last = 0;

static unsigned long number_of(const char *name) {
    const char *text = getenv(name);
    return text == NULL ? 0 : strtoul(text, NULL, 10);
}

// The count stands in a shared file, since a program may end without any call at its exit.
__attribute__((constructor)) static void begin(void) {
    const char *path = getenv("REFUSE_COUNT");
    int file = path == NULL ? -1 : open(path, O_RDWR | O_CLOEXEC);
    if (file >= 0) {
        int access = PROT_READ | PROT_WRITE;
        void *shared = mmap(NULL, sizeof(unsigned long), access, MAP_SHARED, file, 0);
        if (shared != MAP_FAILED)
            count = shared;
        close(file);
    }
    first = number_of("REFUSE_FIRST");
    last = number_of("REFUSE_LAST");
}

static int is_refused(void) {
    unsigned long number = atomic_fetch_add(count, 1) + 1;
    if (first == 0 || number < first || last < number)
        return 0;
    errno = ENOMEM;
    return 1;
}

void *malloc(size_t size) {
    return is_refused() ? NULL : __libc_malloc(size);
}

void *calloc(size_t items, size_t size) {
    return is_refused() ? NULL : __libc_calloc(items, size);
}

void *realloc(void *old, size_t size) {
    return is_refused() ? NULL : __libc_realloc(old, size);
}
