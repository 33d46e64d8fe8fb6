/* json.l: the tokens of a JSON text are dropped, and what is none is told. */
#include "ends.h"

int main(void) {
    PLACES;
    for (;;) {
        token = marker = cursor;
        /*!re2c
            re2c:eof = 0;
            int = "-"? ("0" | [1-9][0-9]*);
            fraction = "." [0-9]+;
            exponent = [eE] [+-]? [0-9]+;
            escape = "\\" (["\\/bfnrt] | "u" [0-9A-Fa-f]{4});

            [\][{},:]                               { continue; }
            "true" | "false" | "null"               { continue; }
            int fraction? exponent?                 { continue; }
            [ \t\r\n]+                              { continue; }
            ["] ([^"\\\x00-\x1f] | escape)* ["]     { continue; }
            [A-Za-z0-9_+.-]+                        { goto unknown; }
            "\n"                                    { ECHO; continue; }
            *                                       { goto unknown; }
            $                                       { flush(); return 0; }
        */
    unknown:
        PUT("unknown ");
        ECHO;
        PUT("\n");
    }
}
