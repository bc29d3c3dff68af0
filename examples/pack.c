/* Packs the scope paper's frame with libolsketina.a and prints the packed bytes, as the program crates/pack_frame does:
 *
 *   cc -std=c11 -Iinclude examples/pack.c target/staticlib/libolsketina.a -o pack
 *   ./pack | cmp - crates/pack_frame/stdout
 */
#include <inttypes.h>
#include <stdio.h>
#include <string.h>

#include "olsketina.h"

enum { ELEMENTS = 3 * 2 * 40, BYTES = 480, ATOM = 32 };

int main(void)
{
    /* Three columns, two rows and forty channels of int8; 128 bytes from line to line, 256 from surface to surface, start 0. */
    const uint32_t layout[OLSKETINA_LAYOUT_WORDS] = {3, 2, 40, 0, 128, 256, 0};
    int16_t elements[ELEMENTS];
    uint8_t buffer[BYTES];
    size_t fault = 0;

    for (int i = 0; i < ELEMENTS; i++)
        elements[i] = (int16_t)(i % 251 - 125);
    memset(buffer, 0xee, sizeof buffer); /* what packing does not write stays and shows */

    const uint32_t refusal = olsketina_cube_pack(layout, elements, ELEMENTS, buffer, BYTES, &fault);
    if (refusal != 0) {
        fprintf(stderr, "refused %" PRIu32 ", index %zu: %s\n", refusal, fault, olsketina_sentence(refusal));
        return 1;
    }

    /* A line for each atom: the offset of its first byte, then its bytes. */
    for (int offset = 0; offset < BYTES; offset += ATOM) {
        printf("%d", offset);
        for (int i = 0; i < ATOM; i++)
            printf(" %02x", (unsigned)buffer[offset + i]);
        putchar('\n');
    }
    return fflush(stdout) == 0 ? 0 : 1;
}
