/* The calls of libtapewoad.a (x86-64 Linux), which `make staticlib` proves and writes. docs/CALLS.md has the words. */
#ifndef TAPEWOAD_H
#define TAPEWOAD_H

#include <stddef.h>
#include <stdint.h>

#ifdef __cplusplus
extern "C" {
#endif

/* The version of the words that this header speaks of. */
#define TAPEWOAD_MAJOR 1u
#define TAPEWOAD_MINOR 2u

/* Lengths of the slices. */
#define TAPEWOAD_SESSION_WORDS 26u
#define TAPEWOAD_BUS_WORDS 10750u
#define TAPEWOAD_ROW_WORDS 26u /* a row of `rows` */
#define TAPEWOAD_OUT_WORDS 32u /* at least */
#define TAPEWOAD_LIST_WORDS 386u /* at least */
#define TAPEWOAD_MOST_ROWS 1024u
#define TAPEWOAD_MOST_ROW_BYTES 65536u

/* What tapewoad_apply and tapewoad_read return. With any but TAPEWOAD_ANSWERED nothing has changed; the first that applies is
   given. */
enum tapewoad_status {
    TAPEWOAD_ANSWERED = 0,   /* the answer stands in `out`, its lists in `lists`: a refusal is an answer too */
    TAPEWOAD_NO_CALL = 1,    /* `call` is no call of this function */
    TAPEWOAD_NO_SESSION = 2, /* `session` has not 26 words, or they are no session's; zeros are one that was never opened */
    TAPEWOAD_NO_ROOM = 3,    /* `out` has fewer than 32 words */
    TAPEWOAD_NO_LISTS = 4    /* `lists` has fewer than 386 words */
};

/* Runs one call. Each slice is a pointer and its length, in words of 64 bits or in bytes. The library believes, and can't test, that
   the pointer is not null and is aligned for its elements, even where the length is 0; that so many elements can be read, and
   written where it is not const; that no two slices overlap; and that nothing else touches them during the call. No pointer is
   kept. `bus`, `rows` and `area` of a wrong length are answered by refusal 3 where the call uses them, an opening all three.
   No proof bounds the stack: at most 20,744 bytes were measured (docs/TRUST.md).
     session  zeros before the opening, the library's own afterwards
     bus      ports, devices, endpoints and marks
     rows     TAPEWOAD_ROW_WORDS for each row that the opening names
     area     the bytes of a row, row after row
     call     the call's number and its words
     bytes    the data of a submission or of completions, else none
     out      the answer: 32 words are written
     lists    the lists of a recovery's answer */
uint64_t tapewoad_apply(
    uint64_t *session, size_t session_words,
    uint64_t *bus, size_t bus_words,
    uint64_t *rows, size_t row_words,
    uint8_t *area, size_t area_bytes,
    const uint64_t *call, size_t call_words,
    const uint8_t *bytes, size_t byte_count,
    uint64_t *out, size_t out_words,
    uint64_t *lists, size_t list_words);

/* Answers a report (calls 16 to 21) or a question (25 to 28): `out` alone is written, and overlaps no other slice. The slices
   are those of tapewoad_apply. */
uint64_t tapewoad_read(
    const uint64_t *session, size_t session_words,
    const uint64_t *bus, size_t bus_words,
    const uint64_t *rows, size_t row_words,
    const uint8_t *area, size_t area_bytes,
    const uint64_t *call, size_t call_words,
    const uint8_t *bytes, size_t byte_count,
    uint64_t *out, size_t out_words);

/* The library's version: the major number times 2^32, and the minor number. The major one rises where a word means
   something else than before, the minor one where a call or a question is added: a program goes with an equal major number and a minor
   number that is not below its header's. */
uint64_t tapewoad_version(void);

#ifdef __cplusplus
}
#endif

#endif
