/* What tests in other languages link instead of the heap: one request of the library for memory is refused. */
#include <stddef.h>
#include <stdlib.h>

/* How many requests are met before one is refused; none is where this is negative. */
static long left = -1;

void tl_test_refuse(long number);
long tl_test_left(void);
void *tl_test_malloc(size_t size);
void *tl_test_realloc(void *block, size_t size);

void tl_test_refuse(long number) {
    left = number;
}

/* Negative where the request that was to be refused came. */
long tl_test_left(void) {
    return left;
}

void *tl_test_malloc(size_t size) {
    return left >= 0 && left-- == 0 ? NULL : malloc(size);
}

void *tl_test_realloc(void *block, size_t size) {
    return left >= 0 && left-- == 0 ? NULL : realloc(block, size);
}
