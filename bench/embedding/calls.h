/* What the tests of the C interface share: files, and one round of all calls. */
#ifndef CALLS_H
#define CALLS_H

#include <lowfare.h>
#include <stdio.h>
#include <stdlib.h>
#include <string.h>

#define REQUEST                                                   \
    "{\"sale\":\"2031-02-01\",\"party\":1,\"best\":3,\"slices\":" \
    "[{\"from\":\"LON\",\"to\":\"NYC\",\"first\":\"2031-03-03\",\"days\":1}]}"
#define TWO_WAYS                                                      \
    "{\"sale\":\"2031-02-01\",\"party\":1,\"best\":3,\"slices\":"     \
    "[{\"from\":\"LON\",\"to\":\"NYC\",\"first\":\"2031-03-03\",\"days\":1}," \
    "{\"from\":\"NYC\",\"to\":\"LON\",\"first\":\"2031-03-10\",\"days\":1}]}"
#define FILING                                                                            \
    "{\"actions\":[{\"put_fare\":{\"carrier\":\"QX\",\"from\":\"LON\",\"to\":\"NYC\"," \
    "\"basis\":\"Y1\",\"class\":\"Y\",\"kind\":\"O\",\"amount\":15000,\"rule\":0}}]}"
#define TICKET "component 1 QX LON NYC Y1\nflight QX 101 2031-03-03 LON\n"
#define BYTES(text) (const uint8_t *)(text), strlen(text)

static inline uint8_t *read_file(const char *name, size_t *length) {
    FILE *file = fopen(name, "rb");
    if (!file || fseek(file, 0, SEEK_END)) return NULL;
    long size = ftell(file);
    uint8_t *bytes = size < 0 ? NULL : malloc((size_t)size + 1);
    rewind(file);
    *length = bytes ? fread(bytes, 1, (size_t)size, file) : 0;
    fclose(file);
    return bytes;
}

/* The place of the certificate in an answer, or NULL. The answer is copied into a buffer of the caller's. */
static inline const uint8_t *certificate_in(lowfare_text *text, uint8_t *into, size_t room, size_t *length) {
    size_t count = lowfare_text_copy(text, into, room - 1);
    into[count] = '\0';
    const char *at = strstr((const char *)into, "certificate 1\n");
    *length = at ? count - (size_t)(at - (const char *)into) : 0;
    return (const uint8_t *)at;
}

/* How many calls of a round answered otherwise than they may: with what is due, or with want of memory, after which
 * calls on handles that hold nothing say so. */
static inline int round_of_calls(const uint8_t *bytes, size_t length) {
    static uint8_t room[65536];
    static const lowfare_book none = LOWFARE_NONE;
    lowfare_book book = none, next = none, other = none;
    lowfare_text text = LOWFARE_NONE;
    int wrong = 0;
#define DUE(call, due)                                                                     \
    do {                                                                                   \
        lowfare_status got = (call);                                                       \
        if (got != (due) && got != LOWFARE_OUT_OF_MEMORY && got != LOWFARE_NO_BOOK) {      \
            fprintf(stderr, "%s: status %u\n", #call, (unsigned)got);                      \
            wrong++;                                                                       \
        }                                                                                  \
    } while (0)
    DUE(lowfare_run(BYTES("search\n"), bytes, length, &text), LOWFARE_DONE);
    DUE(lowfare_open(bytes, length, &book, &text), LOWFARE_DONE);
    DUE(lowfare_file(&book, BYTES(FILING), &next, &text), LOWFARE_DONE);
    DUE(lowfare_file(&book, BYTES("{"), &other, &text), LOWFARE_REFUSED);
    DUE(lowfare_book_share(&book, &other), LOWFARE_DONE);
    DUE(lowfare_search(&next, BYTES(REQUEST), 0, LOWFARE_BUDGET, &text), LOWFARE_DONE);
    DUE(lowfare_search(&next, BYTES(REQUEST), 0, 0, &text), LOWFARE_TOO_LARGE);
    DUE(lowfare_search(&other, BYTES(REQUEST), 0, LOWFARE_BUDGET, &text), LOWFARE_DONE);
    size_t proof_length;
    const uint8_t *proof = certificate_in(&text, room, sizeof room, &proof_length);
    if (proof) {
        DUE(lowfare_check(&book, BYTES(REQUEST), proof, proof_length, &text), LOWFARE_DONE);
        DUE(lowfare_check(&next, BYTES(REQUEST), proof, proof_length, &text), LOWFARE_NO);
    }
    DUE(lowfare_verdict(&book, BYTES(REQUEST), BYTES(TICKET), &text), LOWFARE_DONE);
    DUE(lowfare_calendar(&book, BYTES(REQUEST), 1, 1, LOWFARE_BUDGET, &text), LOWFARE_REFUSED);
    DUE(lowfare_open(BYTES(""), &next, &text), LOWFARE_REFUSED);
    lowfare_text_free(&text);
    lowfare_text_free(&text);
    lowfare_book_close(&other);
    lowfare_book_close(&next);
    lowfare_book_close(&book);
    if (lowfare_version(&book) || lowfare_text_length(&text)) wrong++;
#undef DUE
    return wrong;
}

#endif
