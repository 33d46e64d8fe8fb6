/* documents.l: the comments that begin with two stars. In the place of yymore the token is left where it begins; one that has
   no end is dropped. */
#include "ends.h"

int main(void) {
    PLACES;
code:
    token = marker = cursor;
    /*!re2c
        re2c:eof = 0;
        "/**" / [^/*]                       { goto comment; }
        ["] ([^"\\\n] | "\\" [^\n])* ["]    { goto code; }
        *                                   { goto code; }
        $                                   { goto end; }
    */
comment:
    marker = cursor;
    /*!re2c
        [^*]+       { goto comment; }
        "*"         { goto comment; }
        "*" "/"     { ECHO; PUT("\n"); goto code; }
        *           { goto comment; }
        $           { goto end; }
    */
end:
    flush();
    return 0;
}
