/* A parlour: one picture for all, packed; two pupils' stalls in it, each under its pupil's number; an edit and a read through a stall; five
 * refusals, each printed with its sentence; then a pupil leaves, and the next one finds the stall empty.
 *
 *   cc -std=c11 -Wall -Wextra -pedantic -Iinclude examples/parlour.c target/staticlib/libolsketina.a -o parlour
 *   ./parlour
 */
#include <inttypes.h>
#include <stdio.h>

#include "olsketina.h"

/* The pupils' numbers. */
enum { ADA = 1815, BEN = 1791, CLARA = 1819 };

enum { WIDTH = 3, HEIGHT = 2, CHANNELS = 40, ELEMENTS = WIDTH * HEIGHT * CHANNELS, BYTES = 480 };

/* Prints what a call answered; gives back whether it was accepted. */
static int told(const char *call, uint32_t refusal, const size_t *fault)
{
    printf("%s: %" PRIu32 " (%s)", call, refusal, olsketina_sentence(refusal));
    if (refusal == OLSKETINA_REFUSED_INT8_RANGE || refusal == OLSKETINA_REFUSED_FP16_NAN)
        printf(", element %zu", *fault);
    putchar('\n');
    return refusal == OLSKETINA_ACCEPTED;
}

int main(void)
{
    /* The scope paper's frame: int8, 128 bytes from line to line, 256 from surface to surface. */
    const uint32_t layout[OLSKETINA_LAYOUT_WORDS] = {WIDTH, HEIGHT, CHANNELS, OLSKETINA_INT8, 128, 256, 0};
    /* Channel 33 of a stall's first row, its first two columns; and one element outside of a stall of one row. */
    const uint32_t pair[OLSKETINA_BOX_WORDS] = {33, 0, 0, 1, 1, 2};
    const uint32_t below[OLSKETINA_BOX_WORDS] = {0, 1, 0, 1, 1, 1};
    const int16_t sevens[2] = {7, -7};
    const int16_t bright[2] = {7, 200};
    /* A frame of two fp16 elements; as bit patterns, infinity and a NaN. */
    const uint32_t floats[OLSKETINA_LAYOUT_WORDS] = {2, 1, 1, OLSKETINA_FP16, 64, 64, 0};
    const int16_t patterns[2] = {0x7c00, 0x7c01};
    uint32_t table[OLSKETINA_TABLE_WORDS];
    int16_t elements[ELEMENTS];
    int16_t seen[2] = {0, 0};
    uint8_t buffer[BYTES] = {0};
    uint64_t position = 0, cells = 0;
    size_t fault = 0;
    int good = 1;

    for (int i = 0; i < ELEMENTS; i++)
        elements[i] = (int16_t)(i % 251 - 125);
    good &= told("pack", olsketina_cube_pack(layout, elements, ELEMENTS, buffer, BYTES, &fault), &fault);

    /* Two stalls: the two left columns, and the upper row of the right one. */
    olsketina_regions_empty(layout, table);
    good &= told("place in slot 0", olsketina_regions_place(table, 0, ADA, 0, 0, 2, 2, &fault), &fault);
    good &= told("place in slot 1", olsketina_regions_place(table, 1, BEN, 2, 0, 1, 1, &fault), &fault);

    good &= told("edit through slot 0", olsketina_regions_edit(table, 0, ADA, pair, sevens, 2, buffer, BYTES, &fault), &fault);
    good &= told("read through slot 0", olsketina_regions_read(table, 0, ADA, pair, buffer, BYTES, seen, 2, &fault), &fault);
    good &= told("position in slot 0", olsketina_regions_position(table, 0, ADA, 33, 0, 1, &position, &fault), &fault);
    printf("read %d and %d; the second begins at byte %" PRIu64 "\n", seen[0], seen[1], position);

    good &= seen[0] == 7 && seen[1] == -7 && position == 289;

    /* Refused: an overlap, a box outside of its stall, an element that no int8 holds, an edit from the wrong chair, a NaN. */
    good &= !told("place over slot 0", olsketina_regions_place(table, 2, CLARA, 1, 1, 2, 1, &fault), &fault);
    good &= !told("read below slot 1", olsketina_regions_read(table, 1, BEN, below, buffer, BYTES, seen, 1, &fault), &fault);
    good &= !told("edit with 200", olsketina_regions_edit(table, 0, ADA, pair, bright, 2, buffer, BYTES, &fault), &fault);
    good &= !told("edit of another's", olsketina_regions_edit(table, 0, BEN, pair, sevens, 2, buffer, BYTES, &fault), &fault);
    good &= !told("pack with NaN", olsketina_cube_pack(floats, patterns, 2, buffer, BYTES, &fault), &fault) && fault == 1;

    /* Ada leaves: her cells become zero, and Clara may have the slot and the room. */
    good &= told("count in slot 0", olsketina_regions_count(table, 0, ADA, &cells, &fault), &fault);
    good &= told("release slot 0", olsketina_regions_release(table, 0, ADA, buffer, BYTES, &fault), &fault);
    good &= told("place in slot 0", olsketina_regions_place(table, 0, CLARA, 0, 0, 2, 2, &fault), &fault);
    good &= told("read through slot 0", olsketina_regions_read(table, 0, CLARA, pair, buffer, BYTES, seen, 2, &fault), &fault);
    printf("%" PRIu64 " cells cleared; read %d and %d\n", cells, seen[0], seen[1]);

    good &= seen[0] == 0 && seen[1] == 0 && cells == 160;
    return good && fflush(stdout) == 0 ? 0 : 1;
}
