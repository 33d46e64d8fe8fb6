/* c_tokens.l: the tokens of a C program, one a line. A block of its own for where a line begins stands for `^`. */
#include "ends.h"

#define TELL(kind) (PUT(kind), ECHO, PUT("\n"))

int main(void) {
    PLACES;
    /*!re2c
        re2c:eof = 0;
    */
    /*!rules:re2c:tokens
        letter = [A-Za-z_];
        digit = [0-9];
        exponent = [Ee] [+-]? digit+;
        escape = "\\" [^];

        "/*"                                                                        { goto comment; }
        "//" [^\n]*                                                                 { goto code; }
        "auto" | "break" | "case" | "char" | "const" | "continue" | "default"       { TELL("keyword "); goto code; }
        "do" | "double" | "else" | "enum" | "extern" | "float" | "for" | "goto"     { TELL("keyword "); goto code; }
        "if" | "inline" | "int" | "long" | "register" | "restrict" | "return"       { TELL("keyword "); goto code; }
        "short" | "signed" | "sizeof" | "static" | "struct" | "switch"              { TELL("keyword "); goto code; }
        "typedef" | "union" | "unsigned" | "void" | "while"                         { TELL("keyword "); goto code; }
        letter (letter | digit)*                                                    { TELL("name "); goto code; }
        "0" [xX] [0-9A-Fa-f]+ [uUlL]*                                               { TELL("integer "); goto code; }
        digit+ [uUlL]*                                                              { TELL("integer "); goto code; }
        digit+ exponent [fFlL]?                                                     { TELL("float "); goto code; }
        digit* "." digit+ exponent? [fFlL]?                                         { TELL("float "); goto code; }
        digit+ "." digit* exponent? [fFlL]?                                         { TELL("float "); goto code; }
        "L"? ["] ([^"\\\n] | escape)* ["]                                           { TELL("string "); goto code; }
        "L"? ['] ([^'\\\n] | escape)+ [']                                           { TELL("character "); goto code; }
        "..." | ">>=" | "<<=" | [-+*%/&^|<>=!] "="                                  { TELL("sign "); goto code; }
        ">>" | "<<" | "++" | "--" | "->" | "&&" | "||"                              { TELL("sign "); goto code; }
        [\][(){},;:.&!~*%/+<>^|?=-]                                                 { TELL("sign "); goto code; }
        [ \t\r\v\f\n]+                                                              { if (cursor[-1] == '\n') goto line; goto code; }
        *                                                                           { TELL("unknown "); goto code; }
        $                                                                           { goto end; }
    */
line:
    token = marker = cursor;
    /*!use:re2c:tokens
        [ \t]* "#" ([^\n\\] | escape)*  { goto code; }
    */
code:
    token = marker = cursor;
    /*!use:re2c:tokens */
comment:
    token = marker = cursor;
    /*!re2c
        [^*]+       { goto comment; }
        "*"         { goto comment; }
        "*" "/"     { goto code; }
        *           { goto comment; }
        $           { PUT("a comment is not closed\n"); flush(); return 1; }
    */
end:
    flush();
    return 0;
}
