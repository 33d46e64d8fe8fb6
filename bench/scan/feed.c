/* Scans standard input by a table file, through liblex, and writes what its rules write: by lex_feed in pieces of so many bytes, or with 0
   by lex_scan_table as a whole.

       feed TABLE BYTES */
#include <lex.h>

#include <fcntl.h>
#include <stdio.h>
#include <stdlib.h>
#include <sys/stat.h>
#include <unistd.h>

static uint8_t table[1 << 24], out[1 << 17];

/* Reads a file to its end, or as much as there is room for. */
static size_t read_all(int from, uint8_t *at, size_t room)
{
    size_t len = 0;
    ssize_t got;
    while (len < room && (got = read(from, at + len, room - len)) > 0)
        len += got;
    return len;
}

static void write_all(const uint8_t *at, size_t len)
{
    while (len > 0) {
        ssize_t put = write(1, at, len);
        if (put < 0)
            exit(2);
        at += put;
        len -= put;
    }
}

static void write_out(size_t count)
{
    write_all(out, count < sizeof out ? count : sizeof out);
}

static int by_pieces(size_t size, size_t piece)
{
    static uint8_t in[1 << 20];
    struct lex_scan scan = LEX_SCAN_INIT;
    uint8_t status = 0;
    size_t count, got;
    int answer = lex_open(&scan, table, size);
    while (answer == LEX_OK && (got = read_all(0, in, piece)) > 0)
        for (answer = LEX_TOO_SMALL; answer == LEX_TOO_SMALL; got = 0) {
            answer = lex_feed(&scan, in, got, out, sizeof out, &count);
            write_out(count);
        }
    if (answer == LEX_OK || answer == LEX_ENDED)
        do {
            answer = lex_finish(&scan, out, sizeof out, &count, &status);
            write_out(count);
        } while (answer == LEX_TOO_SMALL);
    lex_close(&scan);
    return answer == LEX_OK ? status : answer;
}

static int whole(size_t size)
{
    size_t room = 1 << 26, count;
    uint8_t status, *in = malloc(room), *all = malloc(room);
    int answer = lex_scan_table(table, size, in, read_all(0, in, room), all, room, &count, &status);
    if (answer == LEX_OK)
        write_all(all, count);
    return answer == LEX_OK ? status : answer;
}

int main(int argc, char **argv)
{
    int file = argc == 3 ? open(argv[1], O_RDONLY) : -1;
    size_t piece = argc == 3 ? strtoul(argv[2], NULL, 10) : 0, size;
    if (file < 0 || piece > 1 << 20)
        return 2;
    size = read_all(file, table, sizeof table);
    return piece == 0 ? whole(size) : by_pieces(size, piece);
}
