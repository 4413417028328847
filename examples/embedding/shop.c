/* A shop in C: a command over bytes in memory, searches of a book, and desks on threads beside a clerk that files. */
#include <lowfare.h>
#include <pthread.h>
#include <stdio.h>
#include <stdlib.h>
#include <string.h>

static const char *const REQUEST =
    "{\"sale\":\"2031-02-01\",\"party\":1,\"slices\":"
    "[{\"from\":\"LON\",\"to\":\"NYC\",\"first\":\"2031-03-03\",\"days\":1}]}";
static const char *const FILING =
    "{\"actions\":[{\"put_fare\":{\"carrier\":\"QX\",\"from\":\"LON\",\"to\":\"NYC\",\"basis\":\"Y1\","
    "\"class\":\"Y\",\"kind\":\"O\",\"amount\":15000,\"rule\":0}}]}";

static void stop(const char *what, lowfare_status status) {
    fprintf(stderr, "%s: status %u\n", what, (unsigned)status);
    exit(1);
}

/* The bytes of a file, and how many. */
static uint8_t *read_file(const char *name, size_t *length) {
    FILE *file = fopen(name, "rb");
    if (!file || fseek(file, 0, SEEK_END)) stop(name, 1);
    long size = ftell(file);
    uint8_t *bytes = malloc((size_t)size + 1);
    if (size < 0 || !bytes) stop(name, 5);
    rewind(file);
    *length = fread(bytes, 1, (size_t)size, file);
    fclose(file);
    return bytes;
}

/* The first lines of a text, up to the certificate, which is let go. */
static void print_answer(lowfare_text *text) {
    size_t length = lowfare_text_length(text);
    char *line = malloc(length + 1);
    if (!line) stop("text", LOWFARE_OUT_OF_MEMORY);
    line[lowfare_text_copy(text, (uint8_t *)line, length)] = '\0';
    char *end = strstr(line, "certificate 1\n");
    if (end) *end = '\0';
    fputs(line, stdout);
    free(line);
    lowfare_text_free(text);
}

/* Searches a book, prints the answer, and gives the version that was searched. */
static void search(lowfare_book *book) {
    lowfare_text answer = LOWFARE_NONE;
    lowfare_status status =
        lowfare_search(book, (const uint8_t *)REQUEST, strlen(REQUEST), 0, LOWFARE_BUDGET, &answer);
    if (status != LOWFARE_DONE) stop("search", status);
    print_answer(&answer);
}

/* A desk: a handle of its own, asked from a thread of its own. */
struct desk {
    lowfare_book book;
    unsigned searches;
};

static void *serve(void *given) {
    struct desk *desk = given;
    for (int i = 0; i < 100; i++) {
        lowfare_text answer = LOWFARE_NONE;
        lowfare_status status =
            lowfare_search(&desk->book, (const uint8_t *)REQUEST, strlen(REQUEST), 0, LOWFARE_BUDGET, &answer);
        if (status == LOWFARE_DONE) desk->searches++;
        lowfare_text_free(&answer);
    }
    lowfare_book_close(&desk->book);
    return NULL;
}

int main(int count, char **words) {
    if (count != 2) stop("usage: shop CASE", LOWFARE_USAGE);
    size_t length;
    uint8_t *bytes = read_file(words[1], &length);

    /* A command of the program over memory. */
    lowfare_text text = LOWFARE_NONE;
    lowfare_status status = lowfare_run((const uint8_t *)"search\n", 7, bytes, length, &text);
    if (status != LOWFARE_DONE) stop("run", status);
    print_answer(&text);

    /* A book that is opened once, and searched. */
    lowfare_book book = LOWFARE_NONE;
    status = lowfare_open(bytes, length, &book, &text);
    if (status != LOWFARE_DONE) stop("open", status);
    free(bytes);
    search(&book);

    /* Four desks on threads have the book, and meanwhile the clerk files: the desks' version stays. */
    enum { DESKS = 4 };
    struct desk desks[DESKS] = {{LOWFARE_NONE, 0}};
    pthread_t threads[DESKS];
    for (int i = 0; i < DESKS; i++) {
        status = lowfare_book_share(&book, &desks[i].book);
        if (status != LOWFARE_DONE) stop("share", status);
        if (pthread_create(&threads[i], NULL, serve, &desks[i])) stop("thread", 1);
    }
    lowfare_book next = LOWFARE_NONE;
    status = lowfare_file(&book, (const uint8_t *)FILING, strlen(FILING), &next, &text);
    if (status != LOWFARE_DONE) stop("file", status);
    for (int i = 0; i < DESKS; i++) {
        pthread_join(threads[i], NULL);
        printf("desk %d searches %u\n", i + 1, desks[i].searches);
    }
    printf("versions %u and %u\n", (unsigned)lowfare_version(&book), (unsigned)lowfare_version(&next));
    search(&next);
    lowfare_book_close(&next);
    lowfare_book_close(&book);
    return 0;
}
