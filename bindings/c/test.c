/* Runs a specification over an input by liblex, and compares with what is stored.

   test FILE.l FILE.input FILE.output STATUS */
#include "lex.h"

#include <stdio.h>
#include <stdlib.h>
#include <string.h>

struct bytes {
    uint8_t *at;
    size_t len;
};

static struct bytes read_file(const char *name)
{
    struct bytes file = {NULL, 0};
    size_t room = 1 << 16, got;
    FILE *stream = fopen(name, "rb");
    if (stream == NULL) {
        perror(name);
        exit(2);
    }
    file.at = malloc(room);
    while (file.at != NULL && (got = fread(file.at + file.len, 1, room - file.len, stream)) > 0) {
        file.len += got;
        if (file.len == room)
            file.at = realloc(file.at, room *= 2);
    }
    fclose(stream);
    if (file.at == NULL)
        exit(2);
    return file;
}

static int same(struct bytes a, const uint8_t *at, size_t len)
{
    return a.len == len && memcmp(a.at, at, len) == 0;
}

static int fail(const char *what, int answer)
{
    fprintf(stderr, "%s: %d\n", what, answer);
    return 1;
}

/* The table file, by a first call that tells how large it is. */
static int make(struct bytes text, struct bytes *table)
{
    struct lex_fault fault;
    uint8_t none[1];
    int answer = lex_generate(text.at, text.len, 0, none, 1, &table->len, &fault);
    if (answer != LEX_TOO_SMALL)
        return answer;
    table->at = malloc(table->len);
    if (table->at == NULL)
        exit(2);
    return lex_generate(text.at, text.len, 0, table->at, table->len, &table->len, &fault);
}

/* The whole input at once. */
static int scan(struct bytes table, struct bytes input, struct bytes wanted, int status)
{
    size_t count, room = wanted.len + 1;
    uint8_t ended, *out = malloc(room);
    int answer;
    if (out == NULL)
        exit(2);
    answer = lex_scan_table(table.at, table.len, input.at, input.len, out, room, &count, &ended);
    if (answer != LEX_OK || ended != status || !same(wanted, out, count))
        return fail("whole input", answer);
    if (wanted.len > 0) {
        answer = lex_scan_table(table.at, table.len, input.at, input.len, out, wanted.len - 1, &count, &ended);
        if (answer != LEX_TOO_SMALL || count != wanted.len || memcmp(out, wanted.at, wanted.len - 1) != 0)
            return fail("buffer too small", answer);
    }
    free(out);
    return 0;
}

/* What was handed out so far. */
struct output {
    struct bytes all;
    size_t room;
};

/* Takes what a call put into a buffer of so many bytes. */
static void take(struct output *output, const uint8_t *buffer, size_t len, size_t count)
{
    size_t here = count < len ? count : len;
    if (output->all.len + here > output->room) {
        fprintf(stderr, "more was handed out than is wanted\n");
        exit(1);
    }
    memcpy(output->all.at + output->all.len, buffer, here);
    output->all.len += here;
}

/* Feeds a piece, and no bytes until all that was written is handed out. */
static int feed(struct lex_scan *scan, const uint8_t *piece, size_t len, uint8_t *buffer, size_t buffer_len, struct output *output)
{
    size_t count;
    int answer = lex_feed(scan, piece, len, buffer, buffer_len, &count);
    take(output, buffer, buffer_len, count);
    while (answer == LEX_TOO_SMALL) {
        answer = lex_feed(scan, piece, 0, buffer, buffer_len, &count);
        take(output, buffer, buffer_len, count);
    }
    return answer;
}

static int finish(struct lex_scan *scan, uint8_t *buffer, size_t buffer_len, struct output *output, uint8_t *status)
{
    size_t count;
    int answer;
    do {
        answer = lex_finish(scan, buffer, buffer_len, &count, status);
        take(output, buffer, buffer_len, count);
    } while (answer == LEX_TOO_SMALL);
    return answer;
}

/* The input in pieces of a size, into a buffer of a size. */
static int scan_pieces(struct bytes table, struct bytes input, struct bytes wanted, int status, size_t piece, size_t buffer_len)
{
    struct lex_scan scan = LEX_SCAN_INIT;
    struct output output = {{malloc(wanted.len + 1), 0}, wanted.len + 1};
    uint8_t ended, *buffer = malloc(buffer_len);
    size_t at = 0;
    int answer;
    if (output.all.at == NULL || buffer == NULL)
        exit(2);
    answer = lex_open(&scan, table.at, table.len);
    while (answer == LEX_OK && at < input.len) {
        size_t len = input.len - at < piece ? input.len - at : piece;
        answer = feed(&scan, input.at + at, len, buffer, buffer_len, &output);
        at += len;
    }
    if (answer == LEX_ENDED && feed(&scan, input.at, input.len, buffer, buffer_len, &output) != LEX_ENDED)
        return fail("a piece after the end", answer);
    if (answer == LEX_OK || answer == LEX_ENDED)
        answer = finish(&scan, buffer, buffer_len, &output, &ended);
    if (answer != LEX_OK || ended != status || !same(wanted, output.all.at, output.all.len)) {
        lex_close(&scan);
        return fail("by pieces", answer);
    }
    if (feed(&scan, input.at, input.len, buffer, buffer_len, &output) != LEX_ENDED || output.all.len != wanted.len)
        return fail("a piece after the end of the input", answer);
    lex_close(&scan);
    free(output.all.at);
    free(buffer);
    return 0;
}

static int scan_all_pieces(struct bytes table, struct bytes input, struct bytes wanted, int status)
{
    return scan_pieces(table, input, wanted, status, 1, 1) || scan_pieces(table, input, wanted, status, 2, 3) ||
           scan_pieces(table, input, wanted, status, 7, 1 << 16) || scan_pieces(table, input, wanted, status, 1 << 16, 100);
}

/* Feeds a text into a buffer of so many bytes, and compares the answer and how many bytes there are. */
static int feeds(struct lex_scan *scan, const char *piece, size_t room, int wanted, size_t wanted_count)
{
    uint8_t out[8];
    size_t count = 9;
    int answer = lex_feed(scan, (const uint8_t *)piece, strlen(piece), out, room, &count);
    return answer == wanted && count == wanted_count ? 0 : fail(piece, answer);
}

static int finishes(struct lex_scan *scan, int wanted, int wanted_status)
{
    uint8_t out[8], status = 9;
    size_t count = 9;
    int answer = lex_finish(scan, out, sizeof out, &count, &status);
    return answer == wanted && count == 0 && status == wanted_status ? 0 : fail("end of a scan", answer);
}

static int opens(struct lex_scan *scan, struct bytes table, int wanted)
{
    int answer = lex_open(scan, table.at, table.len);
    return answer == wanted ? 0 : fail("open", answer);
}

/* A scan that is closed, refused, opened twice, ended by its rules, and at fault. */
static int handles(void)
{
    static const char text[] = "%option stack\n%x C\n%%\na printf(\"A\");\nb exit(3);\nc yy_pop_state();\n";
    struct lex_scan scan = LEX_SCAN_INIT;
    struct bytes none = {(uint8_t *)text, strlen(text)}, table;
    int answer = make(none, &table);
    if (answer != LEX_OK)
        return fail("table of pieces", answer);
    answer = feeds(&scan, "a", 8, LEX_CLOSED, 0) || finishes(&scan, LEX_CLOSED, 0);
    lex_close(&scan);
    answer = answer || opens(&scan, none, LEX_REFUSED) || feeds(&scan, "a", 8, LEX_CLOSED, 0);
    answer = answer || opens(&scan, table, LEX_OK) || feeds(&scan, "a", 8, LEX_OK, 1);
    answer = answer || opens(&scan, table, LEX_OK) || feeds(&scan, "aaba", 1, LEX_TOO_SMALL, 2);
    answer = answer || feeds(&scan, "a", 8, LEX_ENDED, 1) || finishes(&scan, LEX_OK, 3);
    answer = answer || opens(&scan, table, LEX_OK) || feeds(&scan, "aca", 8, LEX_STACK, 1) || finishes(&scan, LEX_STACK, 0);
    lex_close(&scan);
    answer = answer || feeds(&scan, "a", 8, LEX_CLOSED, 0);
    lex_close(&scan);
    free(table.at);
    return answer;
}

/* Refusals, each by its number. */
static int refusals(void)
{
    static const char text[] = "%%\na(b ECHO;\n", line[] = "lex: line 2: UnbalancedParen at 1\n";
    struct lex_fault fault;
    uint8_t out[64], status;
    size_t count;
    int answer = lex_generate((const uint8_t *)text, strlen(text), 0, out, sizeof out, &count, &fault);
    if (answer != LEX_REFUSED || fault.line != 2 || fault.kind != LEX_KIND_UNBALANCED_PAREN || fault.place != 1)
        return fail("refused text", answer);
    if (count != strlen(line) || memcmp(out, line, count) != 0)
        return fail("line of a refusal", answer);
    answer = lex_scan_table((const uint8_t *)text, strlen(text), out, 1, out + 8, 8, &count, &status);
    return answer == LEX_REFUSED && count == 0 && status == 0 ? 0 : fail("refused table", answer);
}

/* The tokens of an input that was worked by hand, with a buffer that is too small first; and the lines of the rules. */
static int tokens(void)
{
    static const char text[] = "%x C\n%%\n[0-9]+ printf(\"N\");\n\n[a-z]+/! yyless(1); BEGIN(C);\n<C>.|\\n ;\n", input[] = "12 ab!";
    static const struct lex_token wanted[] = {
        {0, 2, 0, 0}, {2, 3, LEX_DEFAULT_RULE, 0}, {3, 4, 1, 0}, {4, 5, 2, 1}, {5, 6, 2, 1}};
    struct bytes table;
    struct lex_token found[8];
    uint32_t lines[3];
    uint8_t status;
    size_t count, i;
    int answer = make((struct bytes){(uint8_t *)text, strlen(text)}, &table);
    if (answer != LEX_OK)
        return fail("table of tokens", answer);
    answer = lex_tokens(table.at, table.len, (const uint8_t *)input, strlen(input), found, 2, &count, &status);
    if (answer != LEX_TOO_SMALL || count != 5 || memcmp(found, wanted, sizeof wanted[0]) != 0)
        return fail("few tokens", answer);
    answer = lex_tokens(table.at, table.len, (const uint8_t *)input, strlen(input), found, 8, &count, &status);
    if (answer != LEX_OK || count != 5 || status != 0)
        return fail("tokens", answer);
    for (i = 0; i < 5; i++)
        if (found[i].start != wanted[i].start || found[i].end != wanted[i].end || found[i].rule != wanted[i].rule ||
            found[i].condition != wanted[i].condition)
            return fail("token", (int)i);
    answer = lex_rule_lines((const uint8_t *)text, strlen(text), 0, lines, 3, &count);
    if (answer != LEX_OK || count != 3 || lines[0] != 3 || lines[1] != 5 || lines[2] != 6)
        return fail("lines of rules", answer);
    answer = lex_tokens((const uint8_t *)text, strlen(text), (const uint8_t *)input, 1, found, 8, &count, &status);
    if (answer != LEX_REFUSED || count != 0)
        return fail("tokens by a refused table", answer);
    free(table.at);
    return 0;
}

/* Whether the token stands in this line and column of the input, or tells neither, where lines are not counted. */
static int stands(const struct lex_next_token *token, struct bytes input, int lines)
{
    uint64_t line = 1, column = 1, at;
    if (!lines)
        return token->line == 0 && token->column == 0;
    for (at = 0; at < token->start; at++) {
        column = input.at[at] == '\n' ? 1 : column + 1;
        line += input.at[at] == '\n';
    }
    return token->line == line && token->column == column;
}

/* Whether the stream tells the next of some tokens, with its text, into a buffer that is too small first. */
static int is_next(struct lex_stream *stream, struct bytes input, const struct lex_token *wanted, int lines)
{
    struct lex_next_token token = {0, 0, 0, 0, 0, 0};
    uint8_t status = 9, few[1], *text;
    size_t count = 9;
    int answer = lex_next(stream, &token, &status), same_text;
    if (answer != LEX_OK)
        return answer;
    if (token.start != wanted->start || token.start + token.length != wanted->end || token.rule != wanted->rule ||
        token.condition != wanted->condition || status != 0 || !stands(&token, input, lines))
        return fail("a token told otherwise", (int)token.start);
    answer = lex_text(stream, few, 1, &count);
    if (count != token.length || answer != (count > 1 ? LEX_TOO_SMALL : LEX_OK))
        return fail("a text that has no room", answer);
    text = malloc(token.length + 1);
    if (text == NULL)
        exit(2);
    answer = lex_text(stream, text, token.length + 1, &count);
    same_text = count == token.length && memcmp(text, input.at + token.start, count) == 0;
    free(text);
    return answer == LEX_OK && same_text ? LEX_OK : fail("a text", answer);
}

/* The tokens of the input in pieces of a size, one by one: those that are listed for the whole. */
static int pull_pieces(struct lex_stream *stream, struct bytes input, const struct lex_token *wanted, size_t all, int status, size_t piece,
                       int lines)
{
    struct lex_next_token token;
    uint8_t ended = 9;
    size_t at = 0, told = 0;
    int answer;
    for (;;) {
        answer = told < all ? is_next(stream, input, &wanted[told], lines) : lex_next(stream, &token, &ended);
        if (answer == LEX_OK && told < all) {
            told++;
        } else if (answer != LEX_MORE) {
            break;
        } else if (at < input.len) {
            size_t len = input.len - at < piece ? input.len - at : piece;
            answer = lex_feed_stream(stream, input.at + at, len);
            if (answer != LEX_OK)
                return fail("a piece for tokens", answer);
            at += len;
        } else if (lex_end_stream(stream) != LEX_OK) {
            return fail("the end for tokens", answer);
        }
    }
    if (answer != LEX_ENDED || told != all || ended != status || lex_next(stream, &token, &ended) != LEX_ENDED || ended != status)
        return fail("tokens one by one", answer);
    return lex_feed_stream(stream, input.at, 0) == LEX_ENDED ? 0 : fail("a piece after the last token", answer);
}

static int pull(struct bytes table, struct bytes input, int status)
{
    static const size_t sizes[] = {1, 2, 7, 4096};
    struct lex_stream stream = LEX_STREAM_INIT;
    struct lex_tables tables = LEX_TABLES_INIT;
    struct lex_token *wanted = malloc((input.len + 1) * sizeof *wanted);
    size_t all, i;
    uint8_t ended;
    int answer;
    if (wanted == NULL)
        exit(2);
    answer = lex_tokens(table.at, table.len, input.at, input.len, wanted, input.len + 1, &all, &ended);
    if (answer == LEX_OK)
        answer = lex_load(&tables, table.at, table.len);
    for (i = 0; answer == LEX_OK && i < 4; i++) {
        uint32_t flags = i > 0 ? LEX_LINES : 0;
        answer = i % 2 ? lex_open_stream(&stream, table.at, table.len, flags) : lex_open_stream_loaded(&stream, &tables, flags);
        if (answer == LEX_OK)
            answer = pull_pieces(&stream, input, wanted, all, status, sizes[i], flags == LEX_LINES);
    }
    lex_unload(&tables);
    lex_close_stream(&stream);
    lex_close_stream(&stream);
    free(wanted);
    return answer == LEX_OK ? 0 : fail("a stream", answer);
}

/* A stream that is closed, refused, asked before it is fed, and at fault. */
static int streams(void)
{
    static const char text[] = "%option stack\n%%\na ;\nb yy_pop_state();\n";
    struct lex_stream stream = LEX_STREAM_INIT;
    struct lex_tables tables = LEX_TABLES_INIT;
    struct lex_next_token token = {7, 7, 7, 7, 7, 7};
    struct bytes none = {(uint8_t *)text, strlen(text)}, table;
    uint8_t status = 9, out[2] = {7, 7};
    size_t count = 9, i;
    int answer = make(none, &table);
    if (answer != LEX_OK)
        return fail("table of streams", answer);
    answer = lex_open_stream(&stream, none.at, none.len, LEX_LINES);
    if (answer != LEX_REFUSED || lex_open_stream_loaded(&stream, &tables, LEX_LINES) != LEX_CLOSED)
        return fail("a stream by no table", answer);
    if (lex_next(&stream, &token, &status) != LEX_CLOSED || token.rule != 7 || status != 0 ||
        lex_text(&stream, out, 2, &count) != LEX_CLOSED || count != 0 || out[0] != 7)
        return fail("a closed stream", status);
    if (lex_feed_stream(&stream, none.at, 1) != LEX_CLOSED || lex_end_stream(&stream) != LEX_CLOSED)
        return fail("a piece for a closed stream", 0);
    answer = lex_open_stream(&stream, table.at, table.len, LEX_LINES);
    if (answer != LEX_OK)
        return fail("a stream", answer);
    answer = lex_next(&stream, &token, &status);
    if (answer != LEX_MORE || token.rule != 7)
        return fail("a stream that was fed nothing", answer);
    answer = lex_feed_stream(&stream, (const uint8_t *)"ab", 2);
    if (answer == LEX_OK)
        answer = lex_next(&stream, &token, &status);
    if (answer != LEX_OK || token.rule != 0 || token.start != 0 || token.length != 1 || token.line != 1)
        return fail("a token before a fault", answer);
    for (i = 0; i < 2; i++) {
        answer = lex_next(&stream, &token, &status);
        if (answer == LEX_STACK && lex_feed_stream(&stream, none.at, 1) != LEX_STACK)
            return fail("a piece after a fault", answer);
        if (answer != LEX_STACK || lex_text(&stream, out, 2, &count) != LEX_OK || count != 0)
            return fail("a fault of a stream", answer);
    }
    lex_close_stream(&stream);
    free(table.at);
    return 0;
}

/* The same example, by a table that was loaded once: as a whole, its tokens, and by a scan that outlives the table. */
static int loaded(struct bytes table, struct bytes input, struct bytes wanted, int status)
{
    struct lex_tables tables = LEX_TABLES_INIT, mine = LEX_TABLES_INIT;
    struct lex_scan scan = LEX_SCAN_INIT;
    struct output output = {{malloc(wanted.len + 1), 0}, wanted.len + 1};
    size_t count, other, room = wanted.len + 1;
    uint8_t ended, *out = malloc(room);
    struct lex_token token, same_token;
    int answer = lex_load(&tables, input.at, 0);
    if (output.all.at == NULL || out == NULL)
        exit(2);
    if (answer != LEX_REFUSED || lex_share(&tables, &mine) != LEX_CLOSED)
        return fail("a table of no bytes", answer);
    if (lex_scan_loaded(&mine, input.at, input.len, out, room, &count, &ended) != LEX_CLOSED || count != 0 || ended != 0)
        return fail("whole input by no table", answer);
    if (lex_tokens_loaded(&mine, input.at, input.len, &token, 1, &count, &ended) != LEX_CLOSED || count != 0)
        return fail("tokens by no table", answer);
    answer = lex_load(&tables, table.at, table.len);
    if (answer == LEX_OK)
        answer = lex_share(&tables, &mine);
    if (answer != LEX_OK)
        return fail("load", answer);
    lex_unload(&tables);
    answer = lex_scan_loaded(&mine, input.at, input.len, out, room, &count, &ended);
    if (answer != LEX_OK || ended != status || !same(wanted, out, count))
        return fail("whole input by a loaded table", answer);
    answer = lex_tokens_loaded(&mine, input.at, input.len, &token, 1, &count, &ended);
    if (answer == LEX_OUT_OF_MEMORY)
        return fail("tokens by a loaded table", answer);
    answer = lex_tokens(table.at, table.len, input.at, input.len, &same_token, 1, &other, &ended);
    if (count != other || (count > 0 && (token.end != same_token.end || token.rule != same_token.rule)))
        return fail("tokens by a loaded table", answer);
    answer = lex_open_loaded(&scan, &mine);
    lex_unload(&mine);
    lex_unload(&mine);
    if (answer == LEX_OK)
        answer = feed(&scan, input.at, input.len, out, room, &output);
    if (answer == LEX_OK || answer == LEX_ENDED)
        answer = finish(&scan, out, room, &output, &ended);
    lex_close(&scan);
    if (answer != LEX_OK || ended != status || !same(wanted, output.all.at, output.all.len))
        return fail("by pieces by a loaded table", answer);
    free(output.all.at);
    free(out);
    return 0;
}

/* The names of rules, with no room at first: of a rule that tells one, of one that tells none, and of none; and by no table. */
static int names(void)
{
    static const char text[] = "%%\na puts(\"TOKEN\");\nb ECHO;\n";
    struct lex_tables tables = LEX_TABLES_INIT;
    struct bytes table;
    uint8_t out[8];
    size_t count = 9, none, other;
    int answer = make((struct bytes){(uint8_t *)text, strlen(text)}, &table);
    if (answer != LEX_OK)
        return fail("table of names", answer);
    if (lex_rule_name(&tables, 0, out, sizeof out, &count) != LEX_CLOSED || count != 0)
        return fail("a name by no table", (int)count);
    answer = lex_load(&tables, table.at, table.len);
    if (answer != LEX_OK)
        return fail("load for names", answer);
    answer = lex_rule_name(&tables, 0, out, 2, &count);
    if (answer != LEX_TOO_SMALL || count != 5 || memcmp(out, "TO", 2) != 0)
        return fail("a name that has no room", answer);
    answer = lex_rule_name(&tables, 0, out, sizeof out, &count);
    if (answer != LEX_OK || count != 5 || memcmp(out, "TOKEN", 5) != 0)
        return fail("a name", answer);
    if (lex_rule_name(&tables, 1, out, sizeof out, &none) != LEX_OK || none != 0)
        return fail("no name", (int)none);
    if (lex_rule_name(&tables, LEX_DEFAULT_RULE, out, sizeof out, &other) != LEX_OK || other != 0)
        return fail("the default rule's name", (int)other);
    lex_unload(&tables);
    free(table.at);
    return 0;
}

int main(int argc, char **argv)
{
    struct bytes text, input, wanted, table = {NULL, 0};
    int answer, status;
    if (argc != 5)
        return 2;
    if (lex_version() != LEX_VERSION_NUMBER)
        return fail("the version", (int)lex_version());
    text = read_file(argv[1]);
    input = read_file(argv[2]);
    wanted = read_file(argv[3]);
    status = atoi(argv[4]);
    answer = make(text, &table);
    if (answer == LEX_OUT_OF_MEMORY)
        return LEX_OUT_OF_MEMORY;
    if (answer != LEX_OK)
        return fail(argv[1], answer);
    answer = scan(table, input, wanted, status) || scan_all_pieces(table, input, wanted, status) ||
             loaded(table, input, wanted, status) || pull(table, input, status) || refusals() || tokens() || names() || handles() ||
             streams();
    free(text.at);
    free(input.at);
    free(wanted.at);
    free(table.at);
    return answer;
}
