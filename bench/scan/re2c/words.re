/* words.l: a line for each line and each word. re2c has no REJECT, so the rule for `lex` says what the next match would. */
#include "ends.h"

int main(void) {
    PLACES;
    for (;;) {
        token = marker = cursor;
        /*!re2c
            re2c:eof = 0;
            "lex" / [^A-Za-z]   { PUT("lex\nword\n"); continue; }
            [A-Za-z]+           { PUT("word\n"); continue; }
            "\n"                { PUT("line\n"); continue; }
            *                   { continue; }
            $                   { flush(); return 0; }
        */
    }
}
