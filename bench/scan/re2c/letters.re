/* letters.l: a letter for each token of a program. */
#include "ends.h"

int main(void) {
    PLACES;
code:
    token = marker = cursor;
    /*!re2c
        re2c:eof = 0;
        "/*"                                                { goto comment; }
        "//" [^\n]*                                         { PUT("c"); goto code; }
        "if" | "else" | "for" | "while" | "return" | "int"  { PUT("k"); goto code; }
        "char" | "const" | "static" | "struct" | "void"     { PUT("k"); goto code; }
        [A-Za-z_][A-Za-z0-9_]*                              { PUT("n"); goto code; }
        "0" [xX][0-9A-Fa-f]+                                { PUT("0"); goto code; }
        [0-9]+ ("." [0-9]+)?                                { PUT("0"); goto code; }
        ["] ([^"\\\n] | "\\" [^\n])* ["]                    { PUT("s"); goto code; }
        ['] ([^'\\\n] | "\\" [^\n])+ [']                    { PUT("s"); goto code; }
        "->" | "<<" | ">>" | [-+*%/<>=!] "=" | "&&" | "||"  { PUT("o"); goto code; }
        [\][(){},;.<>=+*%/&|^!~?:#-]                        { PUT("o"); goto code; }
        [ \t]+                                              { goto code; }
        "\n"                                                { PUT("\n"); goto code; }
        *                                                   { ECHO; goto code; }
        $                                                   { goto end; }
    */
comment:
    token = marker = cursor;
    /*!re2c
        [^*]+       { goto comment; }
        "*"         { goto comment; }
        "*" "/"     { PUT("c"); goto code; }
        *           { ECHO; goto comment; }
        $           { goto end; }
    */
end:
    flush();
    return 0;
}
