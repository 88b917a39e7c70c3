/* Fails every n-th allocation of a program that it is loaded into before the C library. The file that REFUSE names has
   four numbers of 64 bits, which may be changed while the program runs: n, or 0 for none; how many allocations fail at
   most; how many allocations there were; and how many of them failed. */
#include <errno.h>
#include <fcntl.h>
#include <stddef.h>
#include <stdint.h>
#include <stdlib.h>
#include <sys/mman.h>
#include <unistd.h>

extern void *__libc_malloc(size_t);
extern void *__libc_calloc(size_t, size_t);
extern void *__libc_realloc(void *, size_t);
extern void *__libc_memalign(size_t, size_t);

struct control {
    uint64_t every, most, count, refused;
};

static volatile struct control *control;

__attribute__((constructor)) static void begin(void) {
    const char *path = getenv("REFUSE");
    int file = path ? open(path, O_RDWR | O_CLOEXEC) : -1;
    if (file < 0)
        return;
    void *map = mmap(NULL, sizeof *control, PROT_READ | PROT_WRITE, MAP_SHARED, file, 0);
    close(file);
    if (map != MAP_FAILED)
        control = map;
}

static int refuse(void) {
    if (!control)
        return 0;
    control->count++;
    if (control->every == 0 || control->count % control->every != 0 || control->refused >= control->most)
        return 0;
    control->refused++;
    errno = ENOMEM;
    return 1;
}

void *malloc(size_t size) {
    return refuse() ? NULL : __libc_malloc(size);
}

void *calloc(size_t count, size_t size) {
    return refuse() ? NULL : __libc_calloc(count, size);
}

void *realloc(void *held, size_t size) {
    return refuse() ? NULL : __libc_realloc(held, size);
}

void *aligned_alloc(size_t align, size_t size) {
    return refuse() ? NULL : __libc_memalign(align, size);
}

int posix_memalign(void **held, size_t align, size_t size) {
    void *made = refuse() ? NULL : __libc_memalign(align, size);
    if (!made)
        return ENOMEM;
    *held = made;
    return 0;
}
