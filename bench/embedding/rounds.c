/* So many rounds of all calls over a case, for valgrind or the address sanitizer to look at: rounds CASE COUNT. */
#include "calls.h"

int main(int count, char **words) {
    size_t length;
    uint8_t *bytes = count == 3 ? read_file(words[1], &length) : NULL;
    if (!bytes) return 2;
    int wrong = 0;
    for (long round = strtol(words[2], NULL, 10); round > 0; round--) wrong += round_of_calls(bytes, length);
    free(bytes);
    printf("%d wrong\n", wrong);
    return wrong != 0;
}
