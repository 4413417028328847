/* lowfare: a proved low-fare search, for C and C++.
 *
 * A book is a timetable with the filings so far. It is opened from the text of a case (docs/FORMATS.md), takes filings
 * as new books, and is asked about requests. A text is what a call answers: bytes without a zero at their end.
 *
 * Ownership. A `lowfare_book` and a `lowfare_text` are variables of yours, set to LOWFARE_NONE before they are used
 * first. What a call puts into one is yours, until `lowfare_book_close` or `lowfare_text_free` lets it go; a call that
 * puts something into one lets go of what it held. Don't copy the struct, and don't write its fields. The bytes that
 * you pass stay yours, and nothing keeps them past the call.
 *
 * Threads. A variable is in one call at a time. A second thread has the same book by a handle of its own, of
 * `lowfare_book_share`: what handles share is counted atomically, and calls with different handles share nothing else,
 * take no lock, wait for nothing and start no thread. A handle may be given to another thread as any data is, by a
 * lock, a join or an atomic.
 *
 * Errors. Each call returns a status. None ends the process, writes a message or sets errno. Each needs memory by
 * `malloc`, and where that gives none the status is LOWFARE_OUT_OF_MEMORY and nothing is lost or leaked: `book` holds
 * what it held, and the handles that the call would have filled hold nothing.
 *
 * Your part. Nothing checks what C passes: a length that is more than the bytes there, a pointer that is null where
 * the length isn't 0, one variable passed twice in a call, or a handle that no call here made is a fault of the
 * caller's, and undefined. Where a length is 0 the pointer must not be null either. `malloc`, `realloc` and `free` of
 * the process are of one allocator, and no call is made from a signal handler. A thread that searches needs 2 MB of
 * stack.
 */
#ifndef LOWFARE_H
#define LOWFARE_H

#include <stdbool.h>
#include <stddef.h>
#include <stdint.h>

#ifdef __cplusplus
extern "C" {
#endif

/* A handle of a book: all but its address is the library's. */
typedef struct lowfare_book {
    bool is_held;
    void *at;
} lowfare_book;

/* A handle of a text: all but its address is the library's. */
typedef struct lowfare_text {
    bool is_held;
    void *at;
} lowfare_text;

/* A handle that holds nothing: `lowfare_book book = LOWFARE_NONE;`. */
#define LOWFARE_NONE { false, NULL }

/* What a call ends with. 0 to 8 are the program's exit statuses. */
typedef uint32_t lowfare_status;
enum {
    /* It was done. */
    LOWFARE_DONE = 0,
    /* A text isn't lawful; the text of the answer is a line `refused LINE REASON`. */
    LOWFARE_REFUSED = 1,
    /* The words are no command line. */
    LOWFARE_USAGE = 2,
    /* Memory was wanting. */
    LOWFARE_OUT_OF_MEMORY = 5,
    /* The search is larger than the budget. */
    LOWFARE_TOO_LARGE = 6,
    /* The certificate fails a check, which the text names. */
    LOWFARE_NO = 7,
    /* A text has more than 67,108,864 bytes. */
    LOWFARE_TOO_LONG = 8,
    /* The handle holds no book. */
    LOWFARE_NO_BOOK = 16
};

/* The budget that the program has by default: how many residuals a search may reach. */
#define LOWFARE_BUDGET 100000u

/* Runs a command of the program, any but `serve`, over an input in memory.
 *   words    the words behind the program's name, one a line, as "search\n--best\n3"; UTF-8
 *   input    what the program would read from standard input
 *   answer   what it would write to standard output; empty at status 5, and at 2 where the words aren't UTF-8
 * Returns the status that the program would end with. */
lowfare_status lowfare_run(const uint8_t *words, size_t words_length, const uint8_t *input, size_t input_length,
                           lowfare_text *answer);

/* Opens the book of the case of a search: its last version. The case's request is judged with it, and let go.
 *   book      holds the book at status 0, else nothing
 *   refusal   holds the line of the refusal at status 1, else nothing
 * Returns 0, 1, 5 or 8. */
lowfare_status lowfare_open(const uint8_t *text, size_t text_length, lowfare_book *book, lowfare_text *refusal);

/* Makes a second handle of the same book, for another thread.
 *   other   holds the book at status 0, else nothing
 * Returns 0, 5 or 16. It takes the same time for each book. */
lowfare_status lowfare_book_share(lowfare_book *book, lowfare_book *other);

/* Lets go of a book; the handle then holds nothing. The book's memory goes with its last handle. */
void lowfare_book_close(lowfare_book *book);

/* Files a filing, one JSON text, upon a book. The book stays as it is, for all who have it.
 *   next      holds the next version at status 0, else nothing; it isn't `book`
 *   refusal   holds the line of the refusal at status 1, else nothing
 * Returns 0, 1, 5, 8 or 16. */
lowfare_status lowfare_file(lowfare_book *book, const uint8_t *filing, size_t filing_length, lowfare_book *next,
                            lowfare_text *refusal);

/* The number of a book's version: how many filings it has. 0 where the handle holds no book. */
uint32_t lowfare_version(lowfare_book *book);

/* Searches a book.
 *   request   one JSON text
 *   best      how many tickets, 1 to 1000; 0 for the number that the request says
 *   budget    how many residuals the search may reach
 *   answer    what the command `search` writes: version, tickets and certificate; at status 1 the line of the
 *             request's refusal; at 6 `too large`
 * Returns 0, 1, 5, 6, 8 or 16. */
lowfare_status lowfare_search(lowfare_book *book, const uint8_t *request, size_t request_length, uint32_t best,
                              uint32_t budget, lowfare_text *answer);

/* Checks a certificate, the lines from `certificate 1` to `end` of an answer, against a book and a request.
 *   answer   `yes` at status 0; at 7 the first check that fails and where; at 1 the line of a refusal
 * Returns 0, 1, 5, 7, 8 or 16. */
lowfare_status lowfare_check(lowfare_book *book, const uint8_t *request, size_t request_length,
                             const uint8_t *certificate, size_t certificate_length, lowfare_text *answer);

/* Prices a request of two slices on each of so many days out and so many back, 1 to 31.
 *   answer   what the command `calendar` writes; at status 1 the line of a refusal
 * Returns 0, 1, 5, 8 or 16. */
lowfare_status lowfare_calendar(lowfare_book *book, const uint8_t *request, size_t request_length, uint8_t outs,
                                uint8_t backs, uint32_t budget, lowfare_text *answer);

/* Judges a ticket, the lines of a `#ticket` section, by a book and a request.
 *   answer   `lawful price P`, or `breaches N` and a line for each; at status 1 the line of a refusal
 * Returns 0, 1, 5, 8 or 16. */
lowfare_status lowfare_verdict(lowfare_book *book, const uint8_t *request, size_t request_length,
                               const uint8_t *ticket, size_t ticket_length, lowfare_text *answer);

/* How many bytes a text has; 0 where the handle holds none. */
size_t lowfare_text_length(lowfare_text *text);

/* Copies as many bytes of a text as there are and as the buffer has room for, and returns how many. */
size_t lowfare_text_copy(lowfare_text *text, uint8_t *into, size_t room);

/* Lets go of a text; the handle then holds nothing. */
void lowfare_text_free(lowfare_text *text);

#ifdef __cplusplus
}
#endif

#endif
