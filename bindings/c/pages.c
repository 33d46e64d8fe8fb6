/* Calls the functions of the examples in docs/C.md, for scripts/liblex.sh.

   pages input FILE.l           scans standard input as it comes
   pages tokens FILE.l          lists the tokens of standard input as they come
   pages pieces FILE.l FILE     scans a file in pieces, by threads
   pages whole FILE.l FILE      scans it whole */
#include "lex.h"

#include <stdio.h>
#include <stdlib.h>
#include <string.h>

enum { ROOM = 1 << 22, PIECES = 4 };

int scan_input(const uint8_t *table, size_t size);
int scan_in_pieces(const uint8_t *table, size_t size, const uint8_t *input, size_t len, uint8_t *out, size_t out_len);
int64_t next_rule(struct lex_stream *stream, char *text, size_t room);

static uint8_t text[ROOM], table[ROOM], input[ROOM], out[PIECES * ROOM];

static size_t read_file(const char *name, uint8_t *at)
{
    FILE *stream = fopen(name, "rb");
    size_t count;
    if (stream == NULL) {
        perror(name);
        exit(2);
    }
    count = fread(at, 1, ROOM, stream);
    fclose(stream);
    return count;
}

static int scan_whole(size_t size, size_t len)
{
    size_t count;
    uint8_t status;
    int answer = lex_scan_table(table, size, input, len, out, sizeof out, &count, &status);
    fwrite(out, 1, count, stdout);
    return answer == LEX_OK ? status : answer;
}

static int list_tokens(size_t size)
{
    struct lex_stream stream = LEX_STREAM_INIT;
    char token[100];
    int64_t rule;
    int answer = lex_open_stream(&stream, table, size, 0);
    if (answer != LEX_OK)
        return answer;
    while ((rule = next_rule(&stream, token, sizeof token)) >= 0)
        printf("%ld: %s\n", (long)rule, token);
    lex_close_stream(&stream);
    return rule == -1 ? 0 : 1;
}

int main(int count, char **words)
{
    struct lex_fault fault;
    size_t size, len;
    int answer;
    if (count < 3)
        return 2;
    len = read_file(words[2], text);
    answer = lex_generate(text, len, 0, table, sizeof table, &size, &fault);
    if (answer != LEX_OK)
        return answer;
    if (count == 3 && strcmp(words[1], "input") == 0)
        return scan_input(table, size);
    if (count == 3 && strcmp(words[1], "tokens") == 0)
        return list_tokens(size);
    if (count != 4)
        return 2;
    len = read_file(words[3], input);
    if (strcmp(words[1], "pieces") == 0)
        return scan_in_pieces(table, size, input, len, out, ROOM);
    return strcmp(words[1], "whole") == 0 ? scan_whole(size, len) : 2;
}
