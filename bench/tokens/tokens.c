/* Counts the tokens of standard input by a table file, their bytes, and their numbers from 1, through liblex:

       tokens next TABLE       by lex_next, fed by pieces of 64 KiB
       tokens lines TABLE      the same, with lines and columns
       tokens listed TABLE     by lex_tokens, over the whole input
       tokens texts TABLE      by lex_next, with the text of each token */
#include <lex.h>

#include <fcntl.h>
#include <stdio.h>
#include <stdlib.h>
#include <string.h>
#include <unistd.h>

enum { PIECE = 1 << 16, TABLE = 1 << 22, INPUT = 1 << 26, TEXT = 1 << 20 };

static uint8_t table[TABLE], piece[PIECE], text[TEXT];
static unsigned long tokens, bytes, numbers, lines;

/* Reads a file to its end, or as much as there is room for. */
static size_t read_all(int from, uint8_t *at, size_t room)
{
    size_t len = 0;
    ssize_t got;
    while (len < room && (got = read(from, at + len, room - len)) > 0)
        len += (size_t)got;
    return len;
}

static int by_next(size_t size, uint32_t flags, int texts)
{
    struct lex_stream stream = LEX_STREAM_INIT;
    struct lex_next_token token;
    uint8_t status;
    size_t count;
    ssize_t got;
    int answer = lex_open_stream(&stream, table, size, flags);
    while (answer == LEX_OK) {
        while ((answer = lex_next(&stream, &token, &status)) == LEX_OK) {
            tokens++;
            bytes += token.length;
            numbers += token.rule + 1;
            lines += token.line;
            if (texts)
                lex_text(&stream, text, TEXT, &count);
        }
        if (answer != LEX_MORE)
            break;
        got = read(0, piece, PIECE);
        answer = got > 0 ? lex_feed_stream(&stream, piece, (size_t)got) : lex_end_stream(&stream);
    }
    lex_close_stream(&stream);
    return answer == LEX_ENDED ? LEX_OK : answer;
}

static int listed(size_t size)
{
    uint8_t *input = malloc(INPUT), status;
    size_t len = read_all(0, input, INPUT), count, i;
    struct lex_token *found = malloc((len + 1) * sizeof *found);
    int answer = lex_tokens(table, size, input, len, found, len + 1, &count, &status);
    for (i = 0; answer == LEX_OK && i < count; i++) {
        tokens++;
        bytes += found[i].end - found[i].start;
        numbers += found[i].rule + 1;
    }
    return answer;
}

int main(int argc, char **argv)
{
    int file = argc == 3 ? open(argv[2], O_RDONLY) : -1, answer;
    size_t size;
    if (file < 0)
        return 2;
    size = read_all(file, table, TABLE);
    if (strcmp(argv[1], "listed") == 0)
        answer = listed(size);
    else
        answer = by_next(size, strcmp(argv[1], "lines") == 0 ? LEX_LINES : 0, strcmp(argv[1], "texts") == 0);
    if (answer != LEX_OK)
        return answer;
    printf("%lu %lu %lu\n", tokens, bytes, numbers);
    return lines == 1;
}
