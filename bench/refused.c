// To be loaded before the C library, glibc: refuses the growth whose number, from 1, the environment gives as REFUSED, and then
// writes a byte to the file descriptor that it gives as REFUSED_FD. Growths are calls of malloc and realloc alone.
#include <stddef.h>
#include <stdlib.h>
#include <unistd.h>

extern void *__libc_malloc(size_t size);
extern void *__libc_realloc(void *block, size_t size);

static long left = -1;

static int refused(void) {
    if (left < 0) {
        const char *number = getenv("REFUSED");
        left = number ? atol(number) : 0;
    }
    if (left == 0 || --left > 0)
        return 0;
    const char *told = getenv("REFUSED_FD");
    if (told && write(atoi(told), "!", 1) < 0)
        abort();
    return 1;
}

void *malloc(size_t size) { return refused() ? NULL : __libc_malloc(size); }

void *realloc(void *block, size_t size) { return refused() ? NULL : __libc_realloc(block, size); }
