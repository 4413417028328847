/* The figures of the C interface, each time the least of seven: figures CASE SECONDS prints for a search case the milliseconds of
 * opening it and of a search on the open book, the blocks of memory that are held of the book, and the searches a second that 1, 2,
 * 4 and 8 threads do, each with a handle of its own, in so many seconds each. */
#include "calls.h"
#include <malloc.h>
#include <pthread.h>
#include <time.h>

/* The most that the limits allow, so that the large cases end with tickets. */
#define BUDGET 1000000u

static double now(void) {
    struct timespec at;
    clock_gettime(CLOCK_MONOTONIC, &at);
    return (double)at.tv_sec + (double)at.tv_nsec * 1e-9;
}

static void stop(const char *what, unsigned status) {
    fprintf(stderr, "%s: status %u\n", what, status);
    exit(1);
}

/* The request of a case's text: the line after `#request`. */
static const uint8_t *request_in(const uint8_t *bytes, size_t length, size_t *count) {
    static const char head[] = "\n#request\n";
    for (size_t at = 0; at + sizeof head - 1 < length; at++) {
        if (memcmp(bytes + at, head, sizeof head - 1)) continue;
        const uint8_t *first = bytes + at + sizeof head - 1;
        const uint8_t *end = memchr(first, '\n', (size_t)(bytes + length - first));
        *count = end ? (size_t)(end - first) : 0;
        return first;
    }
    return NULL;
}

struct desk {
    lowfare_book book;
    const uint8_t *request;
    size_t length;
    double end;
    unsigned long searches;
};

static void *serve(void *given) {
    struct desk *desk = given;
    while (now() < desk->end) {
        lowfare_text text = LOWFARE_NONE;
        lowfare_status status = lowfare_search(&desk->book, desk->request, desk->length, 0, BUDGET, &text);
        if (status != LOWFARE_DONE && status != LOWFARE_TOO_LARGE) stop("search", status);
        lowfare_text_free(&text);
        desk->searches++;
    }
    lowfare_book_close(&desk->book);
    return NULL;
}

static double rate(lowfare_book *book, const uint8_t *request, size_t length, int threads, double seconds) {
    static struct desk desks[8];
    pthread_t ids[8];
    unsigned long searches = 0;
    double end = now() + seconds, began = now();
    for (int i = 0; i < threads; i++) {
        desks[i] = (struct desk){LOWFARE_NONE, request, length, end, 0};
        lowfare_status status = lowfare_book_share(book, &desks[i].book);
        if (status != LOWFARE_DONE) stop("share", status);
        if (pthread_create(&ids[i], NULL, serve, &desks[i])) stop("thread", 1);
    }
    for (int i = 0; i < threads; i++) {
        pthread_join(ids[i], NULL);
        searches += desks[i].searches;
    }
    return (double)searches / (now() - began);
}

int main(int count, char **words) {
    size_t length, asked;
    uint8_t *bytes = count == 3 ? read_file(words[1], &length) : NULL;
    const uint8_t *request = bytes ? request_in(bytes, length, &asked) : NULL;
    if (!request) return 2;
    double seconds = strtod(words[2], NULL), opens = 1e9, search = 1e9;
    lowfare_book book = LOWFARE_NONE;
    lowfare_text text = LOWFARE_NONE;
    size_t before = mallinfo2().uordblks + mallinfo2().hblkhd, held = 0;
    for (int i = 0; i < 7; i++) {
        double began = now();
        lowfare_status status = lowfare_open(bytes, length, &book, &text);
        double took = now() - began;
        if (status != LOWFARE_DONE) stop("open", status);
        if (took < opens) opens = took;
        held = mallinfo2().uordblks + mallinfo2().hblkhd - before;
    }
    lowfare_status status = LOWFARE_DONE;
    for (int i = 0; i < 7; i++) {
        double began = now();
        status = lowfare_search(&book, request, asked, 0, BUDGET, &text);
        double took = now() - began;
        if (took < search) search = took;
    }
    printf("%s status %u open %.3f ms search %.3f ms book %zu KiB text %zu bytes searches a second", words[1], (unsigned)status,
           opens * 1e3, search * 1e3, held / 1024, lowfare_text_length(&text));
    lowfare_text_free(&text);
    for (int threads = 1; threads <= 8; threads *= 2) printf(" %d:%.1f", threads, rate(&book, request, asked, threads, seconds));
    printf("\n");
    lowfare_book_close(&book);
    free(bytes);
    return 0;
}
