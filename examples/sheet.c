/* A sheet fed in parts of any size: reads standard input and prints what the program `sheet` prints.
 *
 *   cc -std=c11 -Wall -Wextra -pedantic -Iinclude examples/sheet.c target/staticlib/libolsketina.a -o sheet
 *   ./sheet <crates/sheet/stdin | cmp - crates/sheet/stdout
 *   ./sheet 3 <crates/sheet/stdin | cmp - crates/sheet/stdout    (parts of three bytes)
 */
#include <stdio.h>
#include <stdlib.h>

#include "olsketina.h"

enum { LARGEST = 4096 };

/* Prints the row of a line that ended, if one did. */
static int print_row(const uint64_t row[OLSKETINA_ROW_WORDS])
{
    uint8_t text[OLSKETINA_TEXT_BYTES];
    uint32_t length;

    if (row[OLSKETINA_ROW_ENDED] == 0)
        return 1;
    length = olsketina_script_row_text(row[OLSKETINA_ROW_LINE], (uint32_t)row[OLSKETINA_ROW_ANSWER], row[OLSKETINA_ROW_VALUE], text);
    return fwrite(text, 1, length, stdout) == length;
}

int main(int argc, char **argv)
{
    const long asked = argc > 1 ? strtol(argv[1], NULL, 10) : LARGEST;
    const size_t most = asked < 1 || asked > LARGEST ? LARGEST : (size_t)asked;
    uint32_t state[OLSKETINA_STATE_WORDS];
    uint8_t line[OLSKETINA_TEXT_BYTES];
    uint8_t header[OLSKETINA_TEXT_BYTES];
    uint8_t part[LARGEST];
    uint64_t row[OLSKETINA_ROW_WORDS];
    const uint32_t length = olsketina_script_header_text(header);
    int good = fwrite(header, 1, length, stdout) == length;
    size_t got;

    olsketina_script_begin(state, line);
    while (good && (got = fread(part, 1, most, stdin)) > 0) {
        size_t read = 0;
        while (good && read < got) {
            read += olsketina_script_feed(state, line, part + read, got - read, row);
            good = print_row(row);
        }
    }
    olsketina_script_finish(state, line, row);
    good = good && print_row(row);
    return good && !ferror(stdin) && fflush(stdout) == 0 ? 0 : 1;
}
