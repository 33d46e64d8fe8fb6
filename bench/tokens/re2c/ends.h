/* How the scanners here read standard input: by blocks of 64 KiB, as re2c's manual has it with an end-of-input rule. YYFILL drops what stands
   before the token, reads behind what is left, and puts a NUL behind it. */
#include <stdio.h>
#include <stdlib.h>
#include <string.h>
#include <unistd.h>

typedef const unsigned char *Place;

enum { BLOCK = 65536, ROOM = 1 << 20 };

typedef struct {
    Place token, cursor, marker, limit;
    size_t length;
    unsigned char buffer[ROOM + 1];
} Scan;

static __attribute__((noinline)) int fill(Scan *scan, Place *cursor, Place *marker) {
    size_t kept = (size_t)(scan->limit - scan->token), moved = (size_t)(scan->token - scan->buffer);
    if (kept + BLOCK > ROOM) {
        exit(74);
    }
    memmove(scan->buffer, scan->token, kept);
    *cursor -= moved;
    *marker -= moved;
    scan->token = scan->buffer;
    ssize_t got = read(0, scan->buffer + kept, BLOCK);
    if (got < 0) {
        exit(74);
    }
    scan->limit = scan->buffer + kept + got;
    scan->buffer[kept + (size_t)got] = 0;
    return got == 0;
}

#define YYCTYPE unsigned char
#define YYCURSOR cursor
#define YYMARKER marker
#define YYLIMIT scan->limit
#define YYFILL() fill(scan, &cursor, &marker)

#define BEGIN(scan)                     \
    Place cursor = (scan)->cursor;      \
    Place marker = cursor;              \
    (scan)->token = cursor

#define TOKEN(number)                                       \
    scan->length = (size_t)(cursor - scan->token);          \
    scan->cursor = cursor;                                  \
    return number
