/* minify.l: a JSON text without its blanks. */
#include "ends.h"

int main(void) {
    PLACES;
text:
    token = marker = cursor;
    /*!re2c
        re2c:eof = 0;
        number = "-"? ("0" | [1-9][0-9]*) ("." [0-9]+)? ([eE] [+-]? [0-9]+)?;
        ["]                         { ECHO; goto string; }
        [\][{},:]                   { ECHO; goto text; }
        "true" | "false" | "null"   { ECHO; goto text; }
        number                      { ECHO; goto text; }
        [ \t\r\n]+                  { goto text; }
        *                           { ECHO; goto text; }
        $                           { goto end; }
    */
string:
    token = marker = cursor;
    /*!re2c
        [^"\\]+     { ECHO; goto string; }
        "\\" [^]    { ECHO; goto string; }
        ["]         { ECHO; goto text; }
        *           { ECHO; goto string; }
        $           { goto end; }
    */
end:
    flush();
    return 0;
}
