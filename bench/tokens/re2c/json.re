/* json.rules: the number of each token, from 1, and 0 at the end. */
#include "ends.h"

static int next(Scan *scan) {
    BEGIN(scan);
    /*!re2c
        re2c:eof = 0;
        int = "-"? ("0" | [1-9][0-9]*);
        fraction = "." [0-9]+;
        exponent = [eE] [+-]? [0-9]+;
        escape = "\\" (["\\/bfnrt] | "u" [0-9A-Fa-f]{4});

        "{"                                     { TOKEN(1); }
        "}"                                     { TOKEN(2); }
        "["                                     { TOKEN(3); }
        "]"                                     { TOKEN(4); }
        ","                                     { TOKEN(5); }
        ":"                                     { TOKEN(6); }
        "true"                                  { TOKEN(7); }
        "false"                                 { TOKEN(8); }
        "null"                                  { TOKEN(9); }
        int fraction? exponent?                 { TOKEN(10); }
        [ \t\r\n]+                              { TOKEN(11); }
        ["] ([^"\\\x00-\x1f] | escape)* ["]     { TOKEN(12); }
        *                                       { TOKEN(13); }
        $                                       { return 0; }
    */
}

#include "count.h"
