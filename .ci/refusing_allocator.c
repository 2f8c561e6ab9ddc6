/* An allocator that refuses growths as it is asked to, laid over the C library's for one program
   (LD_PRELOAD). A request for NONE + n bytes, n from 1 to MOST, is refused and asks for the n-th growth from
   then on to be refused, MOST for each of them. A request for NONE bytes ends that. It is refused where a
   growth was. */

#include <stddef.h>

#define NONE 7000000u
#define MOST 1000u

extern void *__libc_malloc(size_t size);
extern void *__libc_realloc(void *block, size_t size);

/* The number of the growth that is to be refused, counted down. */
static unsigned to_refuse, refused;

static int is_refused(void) {
    if (to_refuse == 0) {
        return 0;
    }
    if (to_refuse < MOST && --to_refuse > 0) {
        return 0;
    }
    refused++;
    return 1;
}

void *malloc(size_t size) {
    if (size >= NONE && size <= NONE + MOST) {
        unsigned before = refused;
        to_refuse = (unsigned)(size - NONE);
        refused = 0;
        return to_refuse > 0 || before > 0 ? NULL : __libc_malloc(size);
    }
    return is_refused() ? NULL : __libc_malloc(size);
}

void *realloc(void *block, size_t size) {
    return is_refused() ? NULL : __libc_realloc(block, size);
}
