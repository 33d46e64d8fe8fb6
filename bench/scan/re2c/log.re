/* log.l: the warnings and errors of a log. Where a line begins a block of its own stands for `^`, one for each condition. */
#include "ends.h"

int main(void) {
    PLACES;
dropped_line:
    token = marker = cursor;
    /*!re2c
        re2c:eof = 0;
        time = [0-9]{4} "-" [0-9]{2} "-" [0-9]{2} " " [0-9]{2} ":" [0-9]{2} ":" [0-9]{2} "." [0-9]{3};
        time " " ("WARN" | "ERROR")     { ECHO; goto kept; }
        time                            { goto dropped; }
        [^0-9\n] [^\n]*                 { goto dropped; }
        "\n"                            { goto dropped_line; }
        *                               { goto dropped; }
        $                               { goto end; }
    */
dropped:
    token = marker = cursor;
    /*!re2c
        [^0-9\n] [^\n]*     { goto dropped; }
        "\n"                { goto dropped_line; }
        *                   { goto dropped; }
        $                   { goto end; }
    */
kept_line:
    token = marker = cursor;
    /*!re2c
        time " " ("WARN" | "ERROR")     { ECHO; goto kept; }
        time                            { goto dropped; }
        "password=" [^ \n]+             { PUT("password=*"); goto kept; }
        [^ \n]+                         { ECHO; goto kept; }
        "\n"                            { ECHO; goto kept_line; }
        *                               { ECHO; goto kept; }
        $                               { goto end; }
    */
kept:
    token = marker = cursor;
    /*!re2c
        "password=" [^ \n]+     { PUT("password=*"); goto kept; }
        [^ \n]+                 { ECHO; goto kept; }
        "\n"                    { ECHO; goto kept_line; }
        *                       { ECHO; goto kept; }
        $                       { goto end; }
    */
end:
    flush();
    return 0;
}
