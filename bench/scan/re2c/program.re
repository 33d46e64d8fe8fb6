/* program.l: a program without its comments, and with one blank where many stood. */
#include "ends.h"

int main(void) {
    PLACES;
code:
    token = marker = cursor;
    /*!re2c
        re2c:eof = 0;
        "/*"                                                { goto comment; }
        "//" [^\n]*                                         { goto code; }
        ["] ([^"\\\n] | "\\" [^\n])* ["]                    { ECHO; goto code; }
        ['] ([^'\\\n] | "\\" [^\n])+ [']                    { ECHO; goto code; }
        "if" | "else" | "for" | "while" | "return" | "int"  { ECHO; goto code; }
        "char" | "const" | "static" | "struct" | "void"     { ECHO; goto code; }
        [A-Za-z_][A-Za-z0-9_]*                              { ECHO; goto code; }
        "0" [xX][0-9A-Fa-f]+                                { ECHO; goto code; }
        [0-9]+ ("." [0-9]+)?                                { ECHO; goto code; }
        "->" | "<<" | ">>" | [-+*%/<>=!] "=" | "&&" | "||"  { ECHO; goto code; }
        [\][(){},;.<>=+*%/&|^!~?:#-]                        { ECHO; goto code; }
        [ \t]+                                              { PUT(" "); goto code; }
        "\n" [ \t\n]*                                       { PUT("\n"); goto code; }
        *                                                   { ECHO; goto code; }
        $                                                   { goto end; }
    */
comment:
    token = marker = cursor;
    /*!re2c
        [^*]+       { goto comment; }
        "*"+ [^/*]  { goto comment; }
        "*"+ "/"    { goto code; }
        *           { ECHO; goto comment; }
        $           { goto end; }
    */
end:
    flush();
    return 0;
}
