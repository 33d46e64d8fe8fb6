/* log.rules: the number of each token, from 1, and 0 at the end. */
#include "ends.h"

static int next(Scan *scan) {
    BEGIN(scan);
    /*!re2c
        re2c:eof = 0;
        digit = [0-9];

        digit{4} "-" digit{2} "-" digit{2}              { TOKEN(1); }
        digit{2} ":" digit{2} ":" digit{2} "." digit{3} { TOKEN(2); }
        "DEBUG" | "INFO" | "WARN" | "ERROR"             { TOKEN(3); }
        digit{1,3} ("." digit{1,3}){3}                  { TOKEN(4); }
        digit+                                          { TOKEN(5); }
        [A-Za-z_][A-Za-z0-9_]*                          { TOKEN(6); }
        "/" [^ \n]*                                     { TOKEN(7); }
        " "+                                            { TOKEN(8); }
        "\n"                                            { TOKEN(9); }
        *                                               { TOKEN(10); }
        $                                               { return 0; }
    */
}

#include "count.h"
