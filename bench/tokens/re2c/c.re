/* c.rules: the number of each token, from 1, and 0 at the end. */
#include "ends.h"

static int next(Scan *scan) {
    BEGIN(scan);
    /*!re2c
        re2c:eof = 0;
        letter = [A-Za-z_];
        digit = [0-9];
        exponent = [Ee] [+-]? digit+;
        escape = "\\" [^];

        "/*" ([^*] | "*"+ [^*/])* "*"+ "/"              { TOKEN(1); }
        "//" [^\n]*                                     { TOKEN(2); }
        "auto" | "break" | "case" | "char" | "const" | "continue" | "default" | "do" | "double" | "else" | "enum" | "extern" | "float"
        | "for" | "goto" | "if" | "inline" | "int" | "long" | "register" | "restrict" | "return" | "short" { TOKEN(3); }
        "signed" | "sizeof" | "static" | "struct" | "switch" | "typedef" | "union" | "unsigned" | "void" | "while" { TOKEN(4); }
        letter (letter | digit)*                        { TOKEN(5); }
        "0" [xX] [0-9A-Fa-f]+ [uUlL]*                   { TOKEN(6); }
        digit+ [uUlL]*                                  { TOKEN(7); }
        digit* "." digit+ exponent? [fFlL]?             { TOKEN(8); }
        "L"? ["] ([^"\\\n] | escape)* ["]               { TOKEN(9); }
        "L"? ['] ([^'\\\n] | escape)+ [']               { TOKEN(10); }
        "..." | ">>=" | "<<=" | [-+*/%&^|<>=!] "="      { TOKEN(11); }
        ">>" | "<<" | "++" | "--" | "->" | "&&" | "||"  { TOKEN(12); }
        [\][(){},;:.&!~*/%+<>^|?=-]                     { TOKEN(13); }
        [ \t\r\n]+                                      { TOKEN(14); }
        *                                               { TOKEN(15); }
        $                                               { return 0; }
    */
}

#include "count.h"
