/* Sends the scope paper's frame atom by atom, columns fastest, then rows, then surfaces, as a bus wants it: here each atom is printed, its byte
 * position and its bytes. Written at their positions, the atoms are what packing leaves.
 *
 *   cc -std=c11 -Wall -Wextra -pedantic -Iinclude examples/walk.c target/staticlib/libolsketina.a -o walk
 *   ./walk | cmp - examples/walk.stdout
 */
#include <inttypes.h>
#include <stdio.h>
#include <string.h>

#include "olsketina.h"

enum { ELEMENTS = 3 * 2 * 40, BYTES = 480 };

/* Prints what a start answered; gives back whether it was accepted. */
static int told(size_t buffer_len, uint32_t refusal)
{
    printf("start, for a buffer of %zu bytes: %" PRIu32 " (%s)\n", buffer_len, refusal, olsketina_sentence(refusal));
    return refusal == OLSKETINA_ACCEPTED;
}

static void send_atom(uint64_t position, const uint8_t bytes[OLSKETINA_ATOM_BYTES])
{
    printf("%" PRIu64, position);
    for (int i = 0; i < OLSKETINA_ATOM_BYTES; i++)
        printf(" %02x", (unsigned)bytes[i]);
    putchar('\n');
}

int main(void)
{
    /* Three columns, two rows and forty channels of int8; 128 bytes from line to line, 256 from surface to surface, start 0. */
    const uint32_t layout[OLSKETINA_LAYOUT_WORDS] = {3, 2, 40, 0, 128, 256, 0};
    int16_t elements[ELEMENTS];
    uint64_t walk[OLSKETINA_WALK_WORDS], position = 0;
    uint8_t bytes[OLSKETINA_ATOM_BYTES], sent[BYTES], packed[BYTES];
    size_t fault = 0;
    int atoms = 0, good = 1;

    for (int i = 0; i < ELEMENTS; i++)
        elements[i] = (int16_t)(i % 251 - 125);
    memset(sent, 0xee, sizeof sent); /* what is not written stays */
    memset(packed, 0xee, sizeof packed);

    /* All checks are made at the start; the buffer at the other end of the bus is only a length. */
    good &= !told(BYTES - 1, olsketina_walk_start(layout, elements, ELEMENTS, BYTES - 1, walk, &fault));
    if (!told(BYTES, olsketina_walk_start(layout, elements, ELEMENTS, BYTES, walk, &fault)))
        return 1;

    while (olsketina_walk_step(walk, elements, ELEMENTS, &position, bytes)) {
        send_atom(position, bytes);
        memcpy(sent + position, bytes, sizeof bytes);
        atoms++;
    }
    good &= olsketina_walk_step(walk, elements, ELEMENTS, &position, bytes) == 0;
    printf("atoms: %d; none is left\n", atoms);

    good &= olsketina_cube_pack(layout, elements, ELEMENTS, packed, BYTES, &fault) == OLSKETINA_ACCEPTED;
    good &= memcmp(sent, packed, BYTES) == 0;
    puts(good ? "written at their positions: what packing leaves" : "something is wrong");
    return good && fflush(stdout) == 0 ? 0 : 1;
}
