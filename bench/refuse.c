/* Refuses one allocation of a program that it is loaded into by LD_PRELOAD: the one with the number REFUSE, from 1, and no
   other. It then writes a byte to the descriptor REFUSE_TELL. Built and used by memory.py. */
#include <errno.h>
#include <stddef.h>
#include <stdlib.h>
#include <unistd.h>

void *__libc_malloc(size_t size);
void *__libc_realloc(void *block, size_t size);
void *__libc_memalign(size_t align, size_t size);

static unsigned long count, refused;
static int tell = -1;

__attribute__((constructor)) static void begin(void) {
    const char *number = getenv("REFUSE"), *descriptor = getenv("REFUSE_TELL");
    count = 0;
    refused = number ? strtoul(number, NULL, 10) : 0;
    tell = descriptor ? (int)strtol(descriptor, NULL, 10) : -1;
}

static int is_refused(void) {
    if (++count != refused) {
        return 0;
    }
    if (tell >= 0 && write(tell, "r", 1) != 1) {
        abort();
    }
    errno = ENOMEM;
    return 1;
}

void *malloc(size_t size) {
    return is_refused() ? NULL : __libc_malloc(size);
}

void *realloc(void *block, size_t size) {
    return is_refused() ? NULL : __libc_realloc(block, size);
}

int posix_memalign(void **block, size_t align, size_t size) {
    if (is_refused()) {
        return ENOMEM;
    }
    *block = __libc_memalign(align, size);
    return *block ? 0 : ENOMEM;
}
