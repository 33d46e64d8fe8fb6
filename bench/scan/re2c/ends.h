/* What the scanners here read and write by: standard input by blocks, as re2c's manual has it with an end-of-input rule (YYFILL drops what
   stands before the token, reads the rest of the buffer full and puts a NUL behind it), and standard output by blocks too.
   Where a token fills the buffer there is room for another block after it. */
#include <stdlib.h>
#include <string.h>
#include <unistd.h>

typedef const unsigned char *Place;

enum { BLOCK = 65536 };

static unsigned char *buffer;
static size_t room;
static unsigned char written[BLOCK];
static size_t waiting;

static void fail(void) {
    exit(74);
}

static void send(const unsigned char *from, size_t length) {
    while (length > 0) {
        ssize_t sent = write(1, from, length);
        if (sent <= 0) {
            fail();
        }
        from += sent;
        length -= (size_t)sent;
    }
}

static void flush(void) {
    send(written, waiting);
    waiting = 0;
}

static inline void put(const void *from, size_t length) {
    if (length > BLOCK - waiting) {
        flush();
        if (length > BLOCK) {
            send(from, length);
            return;
        }
    }
    memcpy(written + waiting, from, length);
    waiting += length;
}

#define PUT(literal) put(literal, sizeof literal - 1)
#define ECHO put(token, (size_t)(cursor - token))

/* Moves the bytes from TOKEN to LIMIT to the front of the buffer, and reads behind them. Tells how many were read. */
static __attribute__((noinline)) size_t fill(Place token, Place limit) {
    size_t kept = (size_t)(limit - token);
    unsigned char *next = buffer;
    if (room - kept < BLOCK) {
        room += room + BLOCK;
        next = malloc(room + 1);
        if (next == NULL) {
            fail();
        }
    }
    if (kept > 0) {
        memmove(next, token, kept);
    }
    if (next != buffer) {
        free(buffer);
        buffer = next;
    }
    ssize_t got = read(0, buffer + kept, room - kept);
    if (got < 0) {
        fail();
    }
    buffer[kept + (size_t)got] = 0;
    return (size_t)got;
}

static inline int refill(Place *token, Place *cursor, Place *marker, Place *limit) {
    size_t far = (size_t)(*cursor - *token), back = (size_t)(*marker - *token), kept = (size_t)(*limit - *token);
    size_t got = fill(*token, *limit);
    *token = buffer;
    *cursor = buffer + far;
    *marker = buffer + back;
    *limit = buffer + kept + got;
    return got == 0;
}

#define YYCTYPE unsigned char
#define YYCURSOR cursor
#define YYMARKER marker
#define YYLIMIT limit
#define YYFILL() refill(&token, &cursor, &marker, &limit)

/* The places of a scan that has read nothing. */
#define PLACES                           \
    unsigned char nothing = 0;           \
    Place token = &nothing;              \
    Place cursor = token, marker = token, limit = token
