/* What a program of these has that refuses allocations. It is linked with --wrap, so that the library's malloc and realloc are
 * those below: after `countdown` allocations one is refused, `met` counts those, and `live` the blocks that are not given back. */
#include "yarntaupe.h"
#include <stdio.h>
#include <stdlib.h>
#include <string.h>

void *__real_malloc(size_t size);
void *__real_realloc(void *block, size_t size);
void __real_free(void *block);

static long countdown, live, met, wrong;

static int refuses(void) { return countdown > 0 && --countdown == 0 && ++met; }

void *__wrap_malloc(size_t size) {
    if (refuses()) return NULL;
    live++;
    return __real_malloc(size);
}

void *__wrap_realloc(void *block, size_t size) {
    if (refuses()) return NULL;
    if (!block) live++;
    return __real_realloc(block, size);
}

void __wrap_free(void *block) {
    if (block) live--;
    __real_free(block);
}

#define CHECK(what) ((what) ? (void)0 : (void)(wrong++, printf("line %d, after %ld refusals: %s\n", __LINE__, met, #what)))
#define BYTES(text) (const uint8_t *)(text), strlen(text)

/* Runs a scenario with its first allocation refused, then with its second, until it meets none. It leaks nothing. */
static void refuse_each(const char *name, void (*scenario)(void)) {
    long from = met;
    for (long n = 1;; n++) {
        long before = met;
        countdown = n;
        scenario();
        CHECK(live == 0);
        if (met == before) break;
    }
    countdown = 0;
    printf("%s: %ld refusals\n", name, met - from);
}
