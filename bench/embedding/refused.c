/* Rounds of all calls in which one allocation after another is refused: each call then has a status, and after each round
 * as many blocks are held as before it. Linked with --wrap for malloc, realloc and free: refused CASE. */
#include "calls.h"

void *__real_malloc(size_t size);
void *__real_realloc(void *block, size_t size);
void __real_free(void *block);

static long until = -1; /* how many allocations are granted before one is refused; none is while it is below 0 */
static long held;       /* how many blocks are held */
static int refused;

static int is_refused(void) {
    if (until != 0) {
        if (until > 0) until--;
        return 0;
    }
    until = -1;
    refused = 1;
    return 1;
}

void *__wrap_malloc(size_t size) {
    void *block = is_refused() ? NULL : __real_malloc(size);
    if (block) held++;
    return block;
}

void *__wrap_realloc(void *block, size_t size) {
    void *moved = is_refused() ? NULL : __real_realloc(block, size);
    if (!block && moved) held++;
    return moved;
}

void __wrap_free(void *block) {
    if (block) held--;
    __real_free(block);
}

int main(int count, char **words) {
    size_t length;
    uint8_t *bytes = count == 2 ? read_file(words[1], &length) : NULL;
    if (!bytes) return 2;
    int wrong = 0;
    long tried = 0;
    do {
        long before = held;
        refused = 0;
        until = tried++;
        wrong += round_of_calls(bytes, length);
        until = -1;
        if (held != before) {
            fprintf(stderr, "allocation %ld: %ld blocks more\n", tried, held - before);
            wrong++;
        }
    } while (refused);
    free(bytes);
    printf("%ld allocations refused in turn, %d wrong\n", tried - 1, wrong);
    return wrong != 0;
}
