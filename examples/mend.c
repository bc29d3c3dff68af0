/* Mends a frame that a board saved with dirt in its padding, in two parts as a program reads a file, and prints the report: position in the file
 * and old value. The old values written back restore the file.
 *
 *   cc -std=c11 -Wall -Wextra -pedantic -Iinclude examples/mend.c target/staticlib/libolsketina.a -o mend
 *   ./mend | cmp - examples/mend.stdout
 */
#include <inttypes.h>
#include <stdio.h>
#include <string.h>

#include "olsketina.h"

enum { ELEMENTS = 3 * 2 * 40, BYTES = 500, PART = 300 };

/* A report: positions and old values, and how many there are. */
struct report {
    uint64_t positions[BYTES], count;
    uint8_t olds[BYTES];
};

/* Three columns, two rows and forty channels of int8; 128 bytes from line to line, 256 from surface to surface, start 0. The last eight channels are
 * in the second surface, and the other 24 bytes of its atoms are padding. */
static const uint32_t LAYOUT[OLSKETINA_LAYOUT_WORDS] = {3, 2, 40, 0, 128, 256, 0};

/* Mends a file part by part; the reports are joined. */
static uint32_t mend(uint8_t file[BYTES], struct report *report)
{
    report->count = 0;
    for (size_t first = 0; first < BYTES; first += PART) {
        const size_t part = BYTES - first < PART ? BYTES - first : PART, room = BYTES - report->count;
        uint64_t count = 0;
        size_t fault = 0;
        const uint32_t refusal = olsketina_padding_mend(
            LAYOUT, first, BYTES, file + first, part, report->positions + report->count, room, report->olds + report->count, room, &count, &fault);
        if (refusal != OLSKETINA_ACCEPTED)
            return refusal;
        report->count += count;
    }
    return OLSKETINA_ACCEPTED;
}

int main(void)
{
    int16_t elements[ELEMENTS];
    uint8_t packed[BYTES], saved[BYTES], file[BYTES];
    struct report report, again;
    uint64_t count = 0;
    size_t fault = 0;

    for (int i = 0; i < ELEMENTS; i++)
        elements[i] = (int16_t)(i % 251 - 125);
    memset(packed, 0xee, sizeof packed); /* gaps, and what is behind the frame: these bytes are nobody's, and stay */
    if (olsketina_cube_pack(LAYOUT, elements, ELEMENTS, packed, BYTES, &fault) != OLSKETINA_ACCEPTED)
        return 1;
    memcpy(saved, packed, sizeof saved);
    saved[264] = 1; /* the first padding byte, one on each side of the cut, the last */
    saved[299] = 2;
    saved[300] = 3;
    saved[479] = 4;
    memcpy(file, saved, sizeof file);

    /* A part that ends past the file is refused, and nothing changes. */
    const uint32_t past =
        olsketina_padding_mend(LAYOUT, 300, BYTES, file, PART, report.positions, BYTES, report.olds, BYTES, &count, &fault);
    printf("%d bytes from 300 of %d: %" PRIu32 " (%s)\n", PART, BYTES, past, olsketina_sentence(past));
    int good = past == OLSKETINA_REFUSED_BUFFER_LENGTH && memcmp(file, saved, BYTES) == 0;

    if (mend(file, &report) != OLSKETINA_ACCEPTED)
        return 1;
    puts("position\told");
    for (uint64_t i = 0; i < report.count; i++)
        printf("%" PRIu64 "\t%u\n", report.positions[i], (unsigned)report.olds[i]);

    good &= memcmp(file, packed, BYTES) == 0;
    good &= mend(file, &again) == OLSKETINA_ACCEPTED && again.count == 0;
    for (uint64_t i = 0; i < report.count; i++)
        file[report.positions[i]] = report.olds[i];
    good &= memcmp(file, saved, BYTES) == 0;
    puts(good ? "mended: as it was packed; mended again: nothing to report; old values written back: as it was saved" : "something is wrong");
    return good && fflush(stdout) == 0 ? 0 : 1;
}
