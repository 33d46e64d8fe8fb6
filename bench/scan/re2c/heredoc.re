/* heredoc.l: a shell script in which each line of a here-document is marked. */
#include "ends.h"

int main(void) {
    PLACES;
script:
    token = marker = cursor;
    /*!re2c
        re2c:eof = 0;
        "<<" [ \t]* ("END" | "'END'" | ["] "END" ["] | "\\END")     { ECHO; goto start; }
        "\\" [^]                                                    { ECHO; goto script; }
        ['] [^']* [']                                               { ECHO; goto script; }
        ["] ([^"\\] | "\\" [^])* ["]                                { ECHO; goto script; }
        [ \t] "#" [^\n]*                                            { ECHO; goto script; }
        *                                                           { ECHO; goto script; }
        $                                                           { flush(); return 0; }
    */
start:
    token = marker = cursor;
    /*!re2c
        "\n"    { ECHO; goto line; }
        *       { ECHO; goto start; }
        $       { flush(); return 0; }
    */
text:
    token = marker = cursor;
    /*!re2c
        *   { ECHO; if (*token == '\n') { goto line; } goto text; }
        $   { goto open; }
    */
line:
    token = marker = cursor;
    /*!re2c
        "END\n"         { ECHO; goto script; }
        [^\n]* "\n"     { PUT("| "); ECHO; goto line; }
        *               { ECHO; goto text; }
        $               { goto open; }
    */
open:
    PUT("a here-document is not closed\n");
    flush();
    return 1;
}
