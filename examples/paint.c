/* From camera to stall: four numbers converted; then a picture of 2x2 pixels, T_A8B8G8R8, painted into a pupil's stall in one call, and once more,
 * brighter. Each time it prints how many components were held to the range, and the stall's bytes; then what is refused.
 *
 *   cc -std=c11 -Wall -Wextra -pedantic -Iinclude examples/paint.c target/staticlib/libolsketina.a -o paint
 *   ./paint | cmp - examples/paint.stdout
 */
#include <inttypes.h>
#include <stdio.h>
#include <string.h>

#include "olsketina.h"

enum { ADA = 1815, SLOT = 2, BYTES = 384, CHANNELS = 4 };

/* Prints what a call answered; gives back whether it was accepted. */
static int told(const char *call, uint32_t refusal)
{
    printf("%s: %" PRIu32 " (%s)\n", call, refusal, olsketina_sentence(refusal));
    return refusal == OLSKETINA_ACCEPTED;
}

/* Converts d - offset over 2^shift to int8 and prints it, and whether it was held. */
static int converted(int32_t d, int16_t offset, uint32_t shift)
{
    int16_t value = 0;
    uint32_t held = 0;
    size_t fault = 0;
    int good = olsketina_quantize_convert(d, offset, 1, shift, OLSKETINA_INT8, &value, &held, &fault) == OLSKETINA_ACCEPTED;

    printf("%" PRId32 " less %d over %u: %d%s\n", d, offset, 1u << shift, value, held ? ", held" : "");
    return good;
}

/* Prints how many components were held; then the elements of each pixel of the stall, and the byte behind them. */
static int shown(uint64_t held, const uint32_t table[OLSKETINA_TABLE_WORDS], const uint8_t *buffer)
{
    uint64_t position = 0;
    size_t fault = 0;
    int good = 1;

    printf("held: %" PRIu64 "\n", held);
    for (uint32_t row = 0; row < 2; row++) {
        for (uint32_t column = 0; column < 2; column++) {
            good &= olsketina_regions_position(table, SLOT, ADA, 0, row, column, &position, &fault) == OLSKETINA_ACCEPTED;
            printf("pixel (%" PRIu32 ", %" PRIu32 ") at byte %" PRIu64 ":", column, row, position);
            for (int i = 0; i <= CHANNELS; i++)
                printf(" %02x", (unsigned)buffer[position + (unsigned)i]);
            putchar('\n');
        }
    }
    return good;
}

int main(void)
{
    /* Four columns, three rows and four channels of int8, without gaps; the stall is of two columns and two rows, from column 1 and row 1 on. */
    const uint32_t layout[OLSKETINA_LAYOUT_WORDS] = {4, 3, CHANNELS, OLSKETINA_INT8, 128, 384, 0};
    /* Format 12, two by two pixels of four components of int8, X offset 0, from byte 0 on, 32 bytes from line to line. */
    const uint32_t image[OLSKETINA_IMAGE_WORDS] = {12, 2, 2, CHANNELS, OLSKETINA_INT8, 0, 0, 32};
    const uint32_t floats[OLSKETINA_IMAGE_WORDS] = {8, 2, 2, CHANNELS, OLSKETINA_FP16, 0, 0, 32};
    /* Two lines; the second may end with its last pixel. */
    const uint8_t pixels[40] = {
        [0] = 0, 1, 127, 128, [4] = 129, 255, 100, 200,
        [32] = 10, 20, 30, 40, [36] = 50, 60, 70, 80,
    };
    uint32_t table[OLSKETINA_TABLE_WORDS];
    uint8_t buffer[BYTES];
    uint64_t held = 0;
    size_t fault = 0;
    int good = 1;

    /* To the nearest: a half goes away from zero. 255 over 2 is 128 and is held to 127; 254 over 2 is 127 and is not. */
    good &= converted(130, 128, 2);
    good &= converted(126, 128, 2);
    good &= converted(255, 0, 1);
    good &= converted(254, 0, 1);

    memset(buffer, 0xee, sizeof buffer); /* what painting does not write stays and shows */
    olsketina_regions_empty(layout, table);
    good &= told("place", olsketina_regions_place(table, SLOT, ADA, 1, 1, 2, 2, &fault));

    /* A component d becomes (d - 128) * 1 over 2^0: black is -128, white 127, and none is held. */
    good &= told("paint", olsketina_parlour_paint(table, SLOT, ADA, image, pixels, sizeof pixels, 128, 1, 0, buffer, BYTES, &held, &fault));
    good &= shown(held, table, buffer);

    /* Half as much again, d * 3 over 2^1: 1 becomes 1.5, so 2; from 85 on they are held to 127. */
    good &= told("paint brighter", olsketina_parlour_paint(table, SLOT, ADA, image, pixels, sizeof pixels, 0, 3, 1, buffer, BYTES, &held, &fault));
    good &= shown(held, table, buffer);

    /* Refused: a float format, and a pixel buffer that ends within the last pixel. A refused call stores no count. */
    held = 99;
    good &= !told("paint floats", olsketina_parlour_paint(table, SLOT, ADA, floats, pixels, sizeof pixels, 128, 1, 0, buffer, BYTES, &held, &fault));
    good &= !told("paint of 39 bytes", olsketina_parlour_paint(table, SLOT, ADA, image, pixels, 39, 128, 1, 0, buffer, BYTES, &held, &fault));
    return good && held == 99 && fflush(stdout) == 0 ? 0 : 1;
}
