/* The camera curve: some of its entries, then both tables with the ready-made settings, looked up. With the stored curve and with the computed one
 * it prints the same.
 *
 *   cc -std=c11 -Wall -Wextra -pedantic -Iinclude examples/curve.c target/staticlib/libolsketina.a \
 *       target/staticlib/libolsketina_curve_computed.a -o curve
 *   ./curve | cmp - examples/curve.stdout
 */
#include <inttypes.h>
#include <stdio.h>

#include "olsketina.h"

enum { SAMPLES = 4 };

int main(void)
{
    /* The last two are past the end of Y, the last five past that of X: each then gives its last entry. */
    const uint32_t indices[] = {0, 1, 2, 64, 65, 255, 256, 257, UINT32_MAX};
    /* Y has 256 steps of 16, X 64 steps of 4: in both, in Y alone, above both, below both. */
    const int32_t samples[SAMPLES] = {256, 257, 4097, -1};
    int16_t x_entries[OLSKETINA_X_ENTRIES], y_entries[OLSKETINA_Y_ENTRIES];
    int32_t x_settings[OLSKETINA_SETTINGS_WORDS], y_settings[OLSKETINA_SETTINGS_WORDS], shifts[OLSKETINA_SLOPES], outputs[SAMPLES];
    int16_t scales[OLSKETINA_SLOPES];
    uint32_t priorities[OLSKETINA_PRIORITIES], counters[OLSKETINA_COUNTERS] = {0};
    size_t fault = 0;

    for (size_t k = 0; k < sizeof indices / sizeof *indices; k++)
        printf("entry %" PRIu32 ": Y %d, X %d\n", indices[k], olsketina_camera_y_entry(indices[k]), olsketina_camera_x_entry(indices[k]));

    olsketina_camera_y_table(y_entries);
    olsketina_camera_x_table(x_entries);
    if (olsketina_camera_ready_made(4, OLSKETINA_CHOICE_UNNAMED, OLSKETINA_CHOICE_UNNAMED, OLSKETINA_CHOICE_UNNAMED, x_settings, y_settings,
                                    scales, shifts, priorities, &fault) != OLSKETINA_ACCEPTED)
        return 1;
    if (olsketina_lut_run_linear(x_settings, y_settings, scales, shifts, priorities[OLSKETINA_PRIORITY] != 0,
                                 priorities[OLSKETINA_PRIORITY_OVERFLOW] != 0, priorities[OLSKETINA_PRIORITY_UNDERFLOW] != 0, x_entries,
                                 OLSKETINA_X_ENTRIES, y_entries, OLSKETINA_Y_ENTRIES, samples, SAMPLES, outputs, SAMPLES, counters,
                                 &fault) != OLSKETINA_ACCEPTED)
        return 1;
    for (int k = 0; k < SAMPLES; k++)
        printf("sample %" PRId32 ": %" PRId32 "\n", samples[k], outputs[k]);
    return fflush(stdout) == 0 ? 0 : 1;
}
