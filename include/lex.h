/* lex.h: scanners made of specifications, and run, by a program in C.

   liblex.a has all that is declared here. Link it alone: it takes memory by malloc, realloc and free of the C library, and
   needs nothing else. docs/C.md has an example.

   A specification is the text of a lex file (docs/MANUAL.md). Its table file is what a scan is made of. Both are bytes, and none
   is kept after a call.

   A program that makes many scans by one table file reads it once, by lex_load. Its scans then go by that table, side by side.

   lex_scan_table scans an input that is there as a whole. A program with a loop of its own, over a socket or in an editor, feeds
   its input to lex_feed as it comes. A parser feeds it to lex_feed_stream, and asks for one token after another by lex_next.

   What holds for each call:

   - A pointer and the length after it are one buffer, with so many bytes, or items. They may be read, and those of `out`, `tokens`
     and `lines` written, for the whole call. Where the length is 0 the pointer must still not be null.
   - No other pointer of the call leads to what `out`, `tokens`, `lines`, `count`, `fault`, `status`, `scan`, `stream`, `token`,
     `tables` or `other` points to: buffers that are written do not overlap another.
   - Nothing is global, so calls in several threads do not meet, as long as none writes what another uses.
   - No call is made from a signal handler, or in the child of a fork of a process with threads.
   - No call ends the process. Memory that is refused is told by LEX_OUT_OF_MEMORY.

   All this is up to the caller, and is not checked. What the calls do where it holds is proved (docs/PROVED.md). */
#ifndef LEX_H
#define LEX_H

#include <stddef.h>
#include <stdint.h>

#ifdef __cplusplus
extern "C" {
#endif

/* The version of this header, as text and as a number: 10000 times the first of its numbers, 100 times the second, and the third. */
#define LEX_VERSION "1.0.0"
#define LEX_VERSION_NUMBER 10000

/* Tells the version of the library, as LEX_VERSION_NUMBER tells that of the header. A program that was made with a header of the same
   first number, and of a second number that is no later, may call it. */
uint32_t lex_version(void);

/* What a call answers. From 65 on the numbers are statuses of the program lex. */
enum lex_answer {
    LEX_OK = 0,              /* all is done */
    LEX_TOO_SMALL = 1,       /* the buffer has no room for all the bytes; *count says how many there are */
    LEX_ENDED = 2,           /* the rules have ended the scan: what is fed from now on counts for nothing */
    LEX_CLOSED = 3,          /* the scan or the stream is closed, or no table is loaded */
    LEX_MORE = 4,            /* the next token asks for more than was fed */
    LEX_REFUSED = 65,        /* the text is no specification, its automaton is too large, or the bytes are no table file */
    LEX_STACK = 70,          /* the rules push more than 255 conditions, or pop where there is none: the scan ends so */
    LEX_OUT_OF_MEMORY = 71,  /* a request for memory was refused */
    LEX_TOO_MANY_READS = 74  /* the scan would read more than 2^40 bytes, or more than 2^64 - 2 were fed to it */
};

/* How a specification is read: none of these, or some of them added. Other bits count for nothing. */
enum lex_flags {
    LEX_FOLD = 1,  /* letters of patterns stand for both cases, as with the program's -i */
    LEX_POSIX = 2  /* an interval applies to the whole series to its left, as with the program's -X */
};

/* Why a specification is refused. The names are those of docs/MANUAL.md. */
enum lex_kind {
    LEX_KIND_NO_RULES_SECTION = 1,
    LEX_KIND_BAD_DEFINITION_LINE = 2,
    LEX_KIND_DUPLICATE_NAME = 3,
    LEX_KIND_DUPLICATE_CONDITION = 4,
    LEX_KIND_UNKNOWN_CONDITION = 5,
    LEX_KIND_VARIABLE_TRAILING = 6,
    LEX_KIND_TWO_TRAILING = 7,
    LEX_KIND_ANCHORED_DEFINITION = 8,
    LEX_KIND_BAD_EOF_RULE = 9,
    LEX_KIND_DUPLICATE_EOF = 10,
    LEX_KIND_UNKNOWN_STATEMENT = 11,
    LEX_KIND_LESS_AND_MORE = 12,
    LEX_KIND_REJECT_COMBINATION = 13,
    LEX_KIND_NOT_LAST = 14,
    LEX_KIND_BAD_EOF_ACTION = 15,
    LEX_KIND_BAD_COUNT = 16,
    LEX_KIND_BAD_STATUS = 17,
    LEX_KIND_UNCLOSED = 18,
    LEX_KIND_DANGLING_BAR = 19,
    LEX_KIND_UNSUPPORTED_OPTION = 20,
    LEX_KIND_TOO_MANY_RULES = 21,
    LEX_KIND_TOO_MANY_CONDITIONS = 22,
    LEX_KIND_TOO_LONG = 23,
    LEX_KIND_UNCLOSED_QUOTE = 101,
    LEX_KIND_UNCLOSED_CLASS = 102,
    LEX_KIND_BAD_RANGE = 103,
    LEX_KIND_EMPTY_CLASS = 104,
    LEX_KIND_UNKNOWN_CLASS_NAME = 105,
    LEX_KIND_UNSUPPORTED_BRACKET = 106,
    LEX_KIND_BAD_ESCAPE = 107,
    LEX_KIND_BAD_INTERVAL = 108,
    LEX_KIND_UNBALANCED_PAREN = 109,
    LEX_KIND_MISSING_OPERAND = 110,
    LEX_KIND_UNDEFINED_NAME = 111,
    LEX_KIND_DEFINITION_CYCLE = 112,
    LEX_KIND_TOO_DEEP = 113,
    LEX_KIND_TOO_BIG = 114,
    LEX_KIND_MISPLACED_SLASH = 115,
    LEX_KIND_TOO_MANY_POSITIONS = 201,
    LEX_KIND_TOO_MANY_STATES = 202
};

/* Where and why a specification is refused. All are 0 where nothing is refused. */
struct lex_fault {
    uint32_t line;  /* the line, from 1; 0 where it is the whole file or its automaton */
    uint32_t kind;  /* one of enum lex_kind */
    size_t place;   /* for a kind from 101 to 199 the place in the rule's pattern, from 0 */
};

/* Makes the table file of the specification in `text`, by the flags of enum lex_flags, into `out`. *count is how many bytes it has.

   LEX_OK: out[0] to out[*count - 1] are the file. It is the same for each text with the same rules.
   LEX_TOO_SMALL: `out` has the first out_len bytes of it. Call again with *count bytes of room.
   LEX_REFUSED: *fault says why. `out` has the line that the program lex writes of it, with its newline, as "lex: line 2:
   BadDefinitionLine\n", of *count bytes; of a longer one the first out_len bytes.
   LEX_OUT_OF_MEMORY: *count is 0, and `out` is as it was.

   What stands in `out` after these bytes is as it was. */
int32_t lex_generate(const uint8_t *text, size_t text_len, uint32_t flags, uint8_t *out, size_t out_len, size_t *count,
                     struct lex_fault *fault);

/* Scans all of `input` by a table file, and puts what its rules write into `out`. *count is how many bytes these are.

   LEX_OK: out[0] to out[*count - 1] are what the rules write for this input, and *status is what they end with, 0 to 63.
   LEX_TOO_SMALL: `out` has the first out_len bytes of it, and *status is set. Call again with *count bytes of room.
   LEX_STACK: `out` has what the rules write up to the fault of the stack, as much as there is room for.
   LEX_REFUSED, LEX_OUT_OF_MEMORY, LEX_TOO_MANY_READS: *count is 0, and `out` is as it was.

   *status is 0 but after LEX_OK and LEX_TOO_SMALL. */
int32_t lex_scan_table(const uint8_t *file, size_t file_len, const uint8_t *input, size_t input_len, uint8_t *out,
                       size_t out_len, size_t *count, uint8_t *status);

/* A match of a scan. */
struct lex_token {
    size_t start;        /* where its text begins in the input, with what yymore kept before it */
    size_t end;          /* where its text ends, after trailing context and yyless */
    uint32_t rule;       /* its rule, from 0 on in the order of the file, or LEX_DEFAULT_RULE */
    uint32_t condition;  /* the start condition in which it was made, 0 for INITIAL, then in the order of the file */
};

/* The rule that takes a byte where no other one matches. */
#define LEX_DEFAULT_RULE UINT32_MAX

/* Lists the tokens of all of `input` by a table file into `tokens`: the match of each turn of the scan, in order. What the rules write
   is written nowhere. *count is how many tokens there are.

   LEX_OK: tokens[0] to tokens[*count - 1] are they, and *status is what the rules end with, 0 to 63.
   LEX_TOO_SMALL: `tokens` has the first tokens_len of them, and *status is set. Call again with room for *count.
   LEX_STACK: `tokens` has those before the fault of the stack, as many as there is room for.
   LEX_REFUSED, LEX_OUT_OF_MEMORY: *count is 0, and `tokens` is as it was.

   Each lies in the input, and begins no earlier than the one before it. A match that REJECT gives up is no token. *status is 0 but after
   LEX_OK and LEX_TOO_SMALL. While it runs, the call keeps as many tokens as there is room for, and those past tokens_len are counted only.
   A token takes 8 bytes then, or 24 from the first on that does not begin where the one before it ends, or has more than 65,535 bytes. */
int32_t lex_tokens(const uint8_t *file, size_t file_len, const uint8_t *input, size_t input_len, struct lex_token *tokens,
                   size_t tokens_len, size_t *count, uint8_t *status);

/* Tells the line of each rule of the specification in `text`, by the flags of enum lex_flags, into `lines`: that of rule 0 first. A table
   file keeps no lines. *count is how many rules there are.

   LEX_OK: lines[0] to lines[*count - 1] are they, from 1.
   LEX_TOO_SMALL: `lines` has the first lines_len of them. Call again with room for *count.
   LEX_REFUSED, LEX_OUT_OF_MEMORY: *count is 0, and `lines` is as it was. lex_generate tells why a text is refused. */
int32_t lex_rule_lines(const uint8_t *text, size_t text_len, uint32_t flags, uint32_t *lines, size_t lines_len, size_t *count);

/* A loaded table. Begin with LEX_TABLES_INIT, and leave its fields to the calls. What holds for it:

   - It is given to one call at a time. These may be made by one thread and then by another. For calls at the same time each thread
     has one of its own, by lex_share: all that share a table read the same memory, and none writes it.
   - It is not copied while it is loaded: of two copies only one could be unloaded.
   - lex_unload gives its memory back, once the last that shares the table is unloaded and the last scan by it is closed. */
struct lex_tables {
    uint8_t is_loaded;
    void *place;
};

#define LEX_TABLES_INIT {0, NULL}

/* Reads a table file, once for all scans by it. If `tables` was loaded, it is unloaded first. Nothing of `file` is kept.

   LEX_OK: it is loaded.
   LEX_REFUSED, LEX_OUT_OF_MEMORY: it is not. */
int32_t lex_load(struct lex_tables *tables, const uint8_t *file, size_t file_len);

/* Has `other` hold the same table, which is neither read nor copied. If `other` was loaded, it is unloaded first.

   LEX_OK: it is loaded.
   LEX_OUT_OF_MEMORY: it is not.
   LEX_CLOSED: neither is, since `tables` is not. */
int32_t lex_share(struct lex_tables *tables, struct lex_tables *other);

/* Unloads a table. One that is not loaded stays so. */
void lex_unload(struct lex_tables *tables);

/* What lex_scan_table does, by a table that is loaded. In place of LEX_REFUSED it answers LEX_CLOSED, where none is: then *count and *status
   are 0, and `out` is as it was. */
int32_t lex_scan_loaded(struct lex_tables *tables, const uint8_t *input, size_t input_len, uint8_t *out, size_t out_len,
                        size_t *count, uint8_t *status);

/* What lex_tokens does, by a table that is loaded. In place of LEX_REFUSED it answers LEX_CLOSED, where none is: then *count and *status are
   0, and `tokens` is as it was. */
int32_t lex_tokens_loaded(struct lex_tables *tables, const uint8_t *input, size_t input_len, struct lex_token *tokens,
                          size_t tokens_len, size_t *count, uint8_t *status);

/* Tells the name of a rule of a table that is loaded, by the number that its tokens have. The name is the first line of the first text that
   the rule writes by puts, printf or fputs, without the newline, where that is a name as in C: letters, digits and _, and no digit first.
   So the rule of an action puts("NUMBER"); has the name NUMBER. Rules of one name are one kind of token. *count is how long it is.

   LEX_OK: out[0] to out[*count - 1] are the name. *count is 0 where the rule has none, and for a number that no rule has, as
   LEX_DEFAULT_RULE.
   LEX_TOO_SMALL: `out` has the first out_len bytes of it. Call again with *count bytes of room.
   LEX_OUT_OF_MEMORY: *count is 0, and `out` is as it was.
   LEX_CLOSED: the same, since `tables` is not loaded. */
int32_t lex_rule_name(struct lex_tables *tables, uint32_t rule, uint8_t *out, size_t out_len, size_t *count);

/* A scan by pieces. Begin with LEX_SCAN_INIT, and leave its fields to the calls. What holds for it:

   - It is written by these five calls alone, one at a time. They may be made by one thread and then by another.
   - It is not copied while it is open: of two copies only one could be closed.
   - lex_close gives its memory back. A scan that is not closed keeps it. */
struct lex_scan {
    uint8_t is_open;
    void *place;
};

#define LEX_SCAN_INIT {0, NULL}

/* Begins a scan by the rules of a table file. If `scan` was open, it is closed first. Nothing of `file` is kept.

   LEX_OK: it is open, and was fed nothing.
   LEX_REFUSED, LEX_OUT_OF_MEMORY: it is closed. */
int32_t lex_open(struct lex_scan *scan, const uint8_t *file, size_t file_len);

/* What lex_open does, by a table that is loaded. In place of LEX_REFUSED it answers LEX_CLOSED, where none is. The scan keeps what it needs
   of the table, which may be unloaded before it. */
int32_t lex_open_loaded(struct lex_scan *scan, struct lex_tables *tables);

/* Scans on with a piece more of the input, of any length, and puts what the rules have written, and what was not handed out yet, into
   `out`. *count is how many bytes these are.

   LEX_OK: out[0] to out[*count - 1] are they. They are all that the bytes fed so far decide: the next match asks for more.
   LEX_TOO_SMALL: `out` has the first out_len of them. The others are kept: feed no bytes, a piece of length 0, to have them, until
   another answer comes. That answer tells how the scan stands.
   LEX_ENDED: the same as LEX_OK, and the rules have ended the scan, whatever more is fed. lex_finish tells the status.
   LEX_STACK: the same, up to a fault of the stack that ended it.
   LEX_OUT_OF_MEMORY, LEX_TOO_MANY_READS: `out` has the beginning of what the rules write, with all that was kept, and the scan has stopped.
   LEX_CLOSED: *count is 0, and `out` is as it was.

   What a caller was handed in all these calls, one after another, is what lex_scan_table writes for all the bytes fed, however they are
   cut into pieces. After any answer from LEX_ENDED on, further pieces count for nothing, and the answer is the same again. */
int32_t lex_feed(struct lex_scan *scan, const uint8_t *piece, size_t piece_len, uint8_t *out, size_t out_len, size_t *count);

/* Tells that the input has ended, and puts what the rules write at its end, and what was not handed out yet, into `out`. *count is how many
   bytes these are.

   LEX_OK: out[0] to out[*count - 1] are they, the last of all, and *status is what the rules end with, 0 to 63.
   LEX_TOO_SMALL: `out` has the first out_len of them. Call again for the others.
   LEX_STACK, LEX_OUT_OF_MEMORY, LEX_TOO_MANY_READS, LEX_CLOSED: as from lex_feed.

   *status is 0 where the rules did not come to an end. After it, pieces count for nothing. */
int32_t lex_finish(struct lex_scan *scan, uint8_t *out, size_t out_len, size_t *count, uint8_t *status);

/* Closes a scan, and gives its memory back. One that is closed stays so. */
void lex_close(struct lex_scan *scan);

/* A stream of tokens: a scan by pieces that is asked for one token after another. What its rules print, copy or put is written nowhere.
   Begin with LEX_STREAM_INIT, and leave its fields to the calls. What holds for it is what holds for a scan by pieces. Its memory does not
   grow with the tokens: it keeps the bytes fed that no token has taken, and the text of the token told last. */
struct lex_stream {
    uint8_t is_open;
    void *place;
};

#define LEX_STREAM_INIT {0, NULL}

/* A token that was asked for. */
struct lex_next_token {
    uint64_t start;      /* where its text begins, in bytes from the beginning of the input, with what yymore kept before it */
    size_t length;       /* how long its text is, up to trailing context or where yyless ends it */
    uint32_t rule;       /* its rule, from 0 on in the order of the file, or LEX_DEFAULT_RULE */
    uint32_t condition;  /* the start condition in which it was made, 0 for INITIAL, then in the order of the file */
    uint64_t line;       /* by LEX_LINES, of its first byte: the line, from 1, which is 1 and the newlines before it; else 0 */
    uint64_t column;     /* by LEX_LINES, of its first byte: the column, from 1, which is 1 and the bytes after these; else 0 */
};

/* What a stream tells beside its tokens: none of these, or some of them added. Other bits count for nothing. */
enum lex_stream_flags {
    LEX_LINES = 1  /* the line and the column of each token. A stream without it spends no time on them */
};

/* Opens a stream by the rules of a table file, by the flags of enum lex_stream_flags. If `stream` was open, it is closed first. Nothing of
   `file` is kept.

   LEX_OK: it is open, and was fed nothing.
   LEX_REFUSED, LEX_OUT_OF_MEMORY: it is closed. */
int32_t lex_open_stream(struct lex_stream *stream, const uint8_t *file, size_t file_len, uint32_t flags);

/* What lex_open_stream does, by a table that is loaded. In place of LEX_REFUSED it answers LEX_CLOSED, where none is. The stream keeps what
   it needs of the table, which may be unloaded before it. */
int32_t lex_open_stream_loaded(struct lex_stream *stream, struct lex_tables *tables, uint32_t flags);

/* Feeds a piece more of the input, of any length. No token is looked for.

   LEX_OK: it was fed.
   LEX_ENDED: it counts for nothing, since lex_end_stream told the end, or lex_next has answered LEX_ENDED.
   LEX_OUT_OF_MEMORY, LEX_TOO_MANY_READS: nothing of it was fed, and the stream is as it was. It may be fed again.
   LEX_STACK: it counts for nothing, since lex_next has answered so. After LEX_OUT_OF_MEMORY from lex_next it is the same.
   LEX_CLOSED: the stream is closed. */
int32_t lex_feed_stream(struct lex_stream *stream, const uint8_t *piece, size_t piece_len);

/* Tells that the input has ended: LEX_OK, or LEX_CLOSED. Pieces count for nothing after it. */
int32_t lex_end_stream(struct lex_stream *stream);

/* Tells the next token, as soon as the bytes fed decide it.

   LEX_OK: *token is it. lex_text has its text.
   LEX_MORE: the next token asks for more than was fed. Feed a piece, or tell the end; after lex_end_stream this never comes.
   LEX_ENDED: there are no more tokens, and *status is what the rules end with, 0 to 63.
   LEX_STACK: a fault of the stack of conditions ended the scan.
   LEX_OUT_OF_MEMORY: the scan has stopped. The tokens so far are the first ones.
   LEX_CLOSED: the stream is closed.

   The tokens told, one after another, are those of lex_tokens for all the bytes fed, however they are cut into pieces. Each is told once.
   From LEX_ENDED, LEX_STACK and LEX_OUT_OF_MEMORY on, the answer is the same again. But after LEX_OK *token is as it was, and but after
   LEX_ENDED *status is 0. */
int32_t lex_next(struct lex_stream *stream, struct lex_next_token *token, uint8_t *status);

/* Puts the text of the token that was told last into `out`, as often as it is asked for, until lex_next is called again. *count is how long
   it is.

   LEX_OK: out[0] to out[*count - 1] are it. It is empty after each other answer of lex_next, and before the first.
   LEX_TOO_SMALL: `out` has the first out_len bytes of it. Call again with *count bytes of room.
   LEX_CLOSED: *count is 0, and `out` is as it was. */
int32_t lex_text(struct lex_stream *stream, uint8_t *out, size_t out_len, size_t *count);

/* Closes a stream, and gives its memory back. One that is closed stays so. */
void lex_close_stream(struct lex_stream *stream);

#ifdef __cplusplus
}
#endif

#endif
