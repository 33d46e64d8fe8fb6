/* A calculator that reads expressions from its standard input, line by line, and answers each line at once:

       bison -o calc.c calc.y && cc -Iinclude calc.c out/liblex/liblex.a -o calc && ./calc calc.l

   Its tokens come from a stream of liblex, by the rules of calc.l, and each is asked for when the parser wants it. */
%code requires {
#include <lex.h>

#include <stdio.h>
#include <stdlib.h>
#include <string.h>
#include <unistd.h>
}

%code {
static struct lex_stream stream = LEX_STREAM_INIT;

static int yylex(void);
static void yyerror(const char *fault);
}

%locations
%define api.value.type {double}
%token NUMBER PLUS MINUS TIMES DIVIDE OPEN CLOSE END FAULT
%left PLUS MINUS
%left TIMES DIVIDE
%precedence SIGN

%%

lines: %empty
     | lines line
     ;

line: END
    | sum END   { printf("%.15g\n", $1); }
    | error END { yyerrok; }
    ;

sum: NUMBER
   | sum PLUS sum   { $$ = $1 + $3; }
   | sum MINUS sum  { $$ = $1 - $3; }
   | sum TIMES sum  { $$ = $1 * $3; }
   | sum DIVIDE sum { if ($3 == 0) { yylloc = @2; yyerror("division by zero"); YYERROR; } $$ = $1 / $3; }
   | MINUS sum %prec SIGN { $$ = -$2; }
   | OPEN sum CLOSE { $$ = $2; }
   ;

%%

/* The token of each rule of calc.l, in the order of the file. The last rule is skipped, as is no other. */
static const int kinds[] = {NUMBER, PLUS, MINUS, TIMES, DIVIDE, OPEN, CLOSE, END};

enum { SKIPPED = sizeof kinds / sizeof kinds[0], PIECE = 1 << 16, LONGEST = 1 << 12 };

/* The token that was told last. */
static struct lex_next_token token;

static void stop(const char *what, int answer)
{
    fprintf(stderr, "calc: %s: %d\n", what, answer);
    exit(2);
}

/* Feeds what standard input has, or its end. What was answered is written before that is waited for. */
static void read_on(void)
{
    static uint8_t piece[PIECE];
    ssize_t got;
    int answer;
    fflush(stdout);
    got = read(0, piece, sizeof piece);
    if (got < 0)
        stop("standard input", -1);
    answer = got > 0 ? lex_feed_stream(&stream, piece, (size_t)got) : lex_end_stream(&stream);
    if (answer != LEX_OK)
        stop("feed", answer);
}

/* The number that the text of the token is, as far as there is room for it. */
static double number(void)
{
    char text[LONGEST + 1];
    size_t count;
    int answer = lex_text(&stream, (uint8_t *)text, LONGEST, &count);
    if (answer != LEX_OK && answer != LEX_TOO_SMALL)
        stop("text", answer);
    text[count < LONGEST ? count : LONGEST] = '\0';
    return strtod(text, NULL);
}

/* Tells the parser where the next token stands: so many bytes after the beginning of the last one that was told. */
static void place(size_t after)
{
    yylloc.first_line = yylloc.last_line = (int)token.line;
    yylloc.first_column = yylloc.last_column = (int)(token.column + after);
}

/* What the last token is for the parser. */
static int kind(void)
{
    return token.rule < SKIPPED ? kinds[token.rule] : FAULT;
}

/* The end of the input ends its last line too. */
static int end(void)
{
    place(token.length);
    if (token.length == 0 || kind() == END)
        return YYEOF;
    token.length = 0;
    return END;
}

/* The next token for the parser, with its place. */
static int yylex(void)
{
    uint8_t status;
    int answer;
    do {
        while ((answer = lex_next(&stream, &token, &status)) == LEX_MORE)
            read_on();
        if (answer == LEX_ENDED)
            return end();
        if (answer != LEX_OK)
            stop("next", answer);
    } while (token.rule == SKIPPED);
    place(0);
    if (kind() == NUMBER)
        yylval = number();
    return kind();
}

static void yyerror(const char *fault)
{
    printf("line %d, column %d: %s\n", yylloc.first_line, yylloc.first_column, fault);
}

static void open_by(const char *name)
{
    static uint8_t text[PIECE], table[PIECE];
    struct lex_fault fault;
    size_t len, size;
    int answer;
    FILE *file = fopen(name, "rb");
    if (file == NULL)
        stop(name, -1);
    len = fread(text, 1, sizeof text, file);
    fclose(file);
    answer = lex_generate(text, len, 0, table, sizeof table, &size, &fault);
    if (answer == LEX_OK)
        answer = lex_open_stream(&stream, table, size, LEX_LINES);
    if (answer != LEX_OK)
        stop(name, answer);
}

int main(int count, char **words)
{
    int status;
    if (count != 2)
        stop("it takes calc.l", count);
    open_by(words[1]);
    status = yyparse();
    lex_close_stream(&stream);
    return status;
}
