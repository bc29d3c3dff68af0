/* Olsketina: memory layouts of a small NVDLA accelerator, for C (from C11 on) and C++ (from C++17 on), on x86-64 Linux.
 *
 * Link libolsketina.a (`tools/build olsketina`), and for the camera curve one of two archives: libolsketina_curve.a, which has its entries
 * stored, or libolsketina_curve_computed.a, which computes them and is smaller (`tools/build olsketina_curve`, `olsketina_curve_computed`).
 * Numbers and refusals are those of the scope paper and of the change requests that have landed (docs/changes); the promise of each call stands
 * above it in crates/olsketina/src/, crates/olsketina_curve/src/ and crates/olsketina_curve_computed/src/.
 *
 * Memory. A slice passes as two arguments, pointer then length (in elements). No pointer may be null, also where its length is 0, and each is
 * aligned to its type. What a call lends for writing must not overlap anything else that it lends. Nothing is kept after a call returns, and
 * nothing is shared between calls: every call is reentrant.
 *
 * Answers. A call with a `fault` returns the refusal's number, OLSKETINA_ACCEPTED (0) where it was accepted, and stores the index at fault in
 * *fault, 0 where there is none. Any contents of any argument are taken: what breaks a rule is refused, and nothing else. A refused call writes
 * *fault and nothing else. "Order" lists the checks in the order in which they are made.
 */
#ifndef OLSKETINA_H
#define OLSKETINA_H

#include <stdbool.h>
#include <stddef.h>
#include <stdint.h>

/* The header's version; olsketina_version() gives the archive's. It grows with every change of a call, of its answers or of a word's
 * meaning. */
#define OLSKETINA_VERSION 9

/* A parameter that points to (at least) n elements; a result that must be looked at. */
#ifdef __cplusplus
#define OLSKETINA_WORDS(n) n
#define OLSKETINA_NODISCARD [[nodiscard]]
extern "C" {
#else
#define OLSKETINA_WORDS(n) static n
#if defined(__STDC_VERSION__) && __STDC_VERSION__ >= 202311L
#define OLSKETINA_NODISCARD [[nodiscard]]
#elif defined(__GNUC__)
#define OLSKETINA_NODISCARD __attribute__((warn_unused_result))
#else
#define OLSKETINA_NODISCARD
#endif
#endif

/* The version of the archive: OLSKETINA_VERSION of the header that it was written with. */
OLSKETINA_NODISCARD uint32_t olsketina_version(void);

/* ---- refusals: docs/REFUSALS.md has for each what provokes it and how to mend it */

enum olsketina_refusal {
    OLSKETINA_ACCEPTED = 0,
    OLSKETINA_REFUSED_SIZE = 1,
    OLSKETINA_REFUSED_PRECISION = 2,
    OLSKETINA_REFUSED_CUBE_STRIDES = 3,
    OLSKETINA_REFUSED_CUBE_START = 4,
    OLSKETINA_REFUSED_BUFFER_LENGTH = 5,
    OLSKETINA_REFUSED_ELEMENT_COUNT = 6,
    OLSKETINA_REFUSED_INT8_RANGE = 7,
    OLSKETINA_REFUSED_SLOT = 8,
    OLSKETINA_REFUSED_BOUNDS = 9,
    OLSKETINA_REFUSED_OVERLAP = 10,
    OLSKETINA_REFUSED_TABLE_LENGTH = 11,
    OLSKETINA_REFUSED_X_SELECT = 12,
    OLSKETINA_REFUSED_X_END = 13,
    OLSKETINA_REFUSED_Y_SELECT = 14,
    OLSKETINA_REFUSED_Y_END = 15,
    OLSKETINA_REFUSED_SHIFT = 16,
    OLSKETINA_REFUSED_COUNTERS = 17,
    OLSKETINA_REFUSED_OUTPUT_LENGTH = 18,
    OLSKETINA_REFUSED_PIXEL_FORMAT = 19,
    OLSKETINA_REFUSED_PIXEL_KIND = 20,
    OLSKETINA_REFUSED_X_OFFSET = 21,
    OLSKETINA_REFUSED_PIXEL_STRIDES = 22,
    OLSKETINA_REFUSED_PIXEL_OUTSIDE = 23,
    OLSKETINA_REFUSED_SCRIPT_LINE = 24,
    OLSKETINA_REFUSED_OWNER_ID = 25,
    OLSKETINA_REFUSED_FP16_NAN = 26,
    OLSKETINA_REFUSED_IMAGE_KIND = 29,
    OLSKETINA_REFUSED_PIXEL_LENGTH = 30
};

/* A refusal's plain sentence, for any number. */
static inline const char *olsketina_sentence(uint32_t refusal)
{
    switch (refusal) {
    case OLSKETINA_ACCEPTED: return "accepted";
    case OLSKETINA_REFUSED_SIZE: return "a size is out of its range";
    case OLSKETINA_REFUSED_PRECISION: return "the precision code is unknown, or is not taken here";
    case OLSKETINA_REFUSED_CUBE_STRIDES: return "the line or surface stride of the cube does not fit its sizes, or is no multiple of 32";
    case OLSKETINA_REFUSED_CUBE_START: return "the start of the cube is no multiple of 32";
    case OLSKETINA_REFUSED_BUFFER_LENGTH: return "the buffer or the file is too short";
    case OLSKETINA_REFUSED_ELEMENT_COUNT: return "the number of elements is not exactly the one that is needed";
    case OLSKETINA_REFUSED_INT8_RANGE: return "an int8 element is outside -128 to 127";
    case OLSKETINA_REFUSED_SLOT: return "the slot is above 15, not placed, or already placed";
    case OLSKETINA_REFUSED_BOUNDS: return "the box or the element is empty or outside, or the image has not the size of the region";
    case OLSKETINA_REFUSED_OVERLAP: return "the region overlaps one that is placed";
    case OLSKETINA_REFUSED_TABLE_LENGTH: return "the X table has not 65 entries, or the Y table not 257";
    case OLSKETINA_REFUSED_X_SELECT: return "the select or offset of the X table is out of its range";
    case OLSKETINA_REFUSED_X_END: return "the end of the X table is not the one that its start and select give";
    case OLSKETINA_REFUSED_Y_SELECT: return "the select of the Y table, or of the ready-made settings, is out of its range";
    case OLSKETINA_REFUSED_Y_END: return "the end of the Y table is not the one that its start and select give";
    case OLSKETINA_REFUSED_SHIFT: return "a shift is out of its range";
    case OLSKETINA_REFUSED_COUNTERS: return "the counters and the new samples together are above 4294967295";
    case OLSKETINA_REFUSED_OUTPUT_LENGTH: return "the outputs or the report have not the number of places that is needed";
    case OLSKETINA_REFUSED_PIXEL_FORMAT: return "the pixel format code is unknown";
    case OLSKETINA_REFUSED_PIXEL_KIND: return "channels or precision are not those of the pixel format";
    case OLSKETINA_REFUSED_X_OFFSET: return "the X offset is out of the range of the pixel format";
    case OLSKETINA_REFUSED_PIXEL_STRIDES: return "the start or line stride of the image is no multiple of 32, or the line is too short";
    case OLSKETINA_REFUSED_PIXEL_OUTSIDE: return "the pixel is outside the image";
    case OLSKETINA_REFUSED_SCRIPT_LINE: return "a line cannot be read as a record, or a file cannot be opened, read or written";
    case OLSKETINA_REFUSED_OWNER_ID: return "the owner's id is not 1 to 65535, or not that of the region";
    case OLSKETINA_REFUSED_FP16_NAN: return "an fp16 element is NaN";
    case OLSKETINA_REFUSED_IMAGE_KIND: return "the image is of an fp16 format, or has not the channels of the cube";
    case OLSKETINA_REFUSED_PIXEL_LENGTH: return "the pixel buffer ends before the last pixel of the image does";
    default: return "no number of a refusal";
    }
}

/* ---- cube layouts */

/* precisions. An fp16 element is its bit pattern: packing, editing and the start of a walk take infinities and refuse a NaN (exponent bits all set,
 * fraction not 0); reading gives what the buffer holds, NaN too. */
#define OLSKETINA_INT8 0
#define OLSKETINA_INT16 1
#define OLSKETINA_FP16 2

/* words of a layout; strides and start in bytes */
#define OLSKETINA_LAYOUT_WIDTH 0
#define OLSKETINA_LAYOUT_HEIGHT 1
#define OLSKETINA_LAYOUT_CHANNELS 2
#define OLSKETINA_LAYOUT_PRECISION 3
#define OLSKETINA_LAYOUT_LINE 4
#define OLSKETINA_LAYOUT_SURFACE 5
#define OLSKETINA_LAYOUT_START 6
#define OLSKETINA_LAYOUT_WORDS 7

/* Whether a cube's layout is valid.
 * Order: 1, 2, 3, 4. */
OLSKETINA_NODISCARD uint32_t olsketina_layout_check(
    const uint32_t layout[OLSKETINA_WORDS(OLSKETINA_LAYOUT_WORDS)], size_t *fault);

/* Bytes from the start to the end of the last atom, stored in *value.
 * Order: 1, 2, 3, 4. */
OLSKETINA_NODISCARD uint32_t olsketina_layout_extent(
    const uint32_t layout[OLSKETINA_WORDS(OLSKETINA_LAYOUT_WORDS)], uint64_t *value, size_t *fault);

/* ---- cubes */

/* Packs a raw tensor: each atom is written whole, its padding as 0; every other byte stays. (This is the first call that takes slices: their
 * pointers are never null, also where a length is 0.)
 * Order: 1, 2, 3, 4, 6, 5, then 7 of int8 or 26 of fp16 (fault: the least raw index at fault). */
OLSKETINA_NODISCARD uint32_t olsketina_cube_pack(
    const uint32_t layout[OLSKETINA_WORDS(OLSKETINA_LAYOUT_WORDS)],
    const int16_t *elements, size_t elements_len, uint8_t *buffer, size_t buffer_len, size_t *fault);

/* Reads a packed cube back into raw order; padding is ignored.
 * Order: 1, 2, 3, 4, 6, 5. */
OLSKETINA_NODISCARD uint32_t olsketina_cube_unpack(
    const uint32_t layout[OLSKETINA_WORDS(OLSKETINA_LAYOUT_WORDS)],
    const uint8_t *buffer, size_t buffer_len, int16_t *elements, size_t elements_len, size_t *fault);

/* The byte at which an element begins, stored in *value.
 * Order: 1, 2, 3, 4, 9. */
OLSKETINA_NODISCARD uint32_t olsketina_cube_position(
    const uint32_t layout[OLSKETINA_WORDS(OLSKETINA_LAYOUT_WORDS)],
    uint32_t channel, uint32_t row, uint32_t column, uint64_t *value, size_t *fault);

/* Mends a part of a file that holds a cube from the layout's start on: each padding byte of the part that is not 0 becomes 0 and is reported, its
 * position in the file in positions and what stood there in olds, ascending; how many they are is stored in *count. Every other byte stays, and
 * every place past the report. `first` is the position of the part's first byte, `length` the file's length; the part may begin and end anywhere,
 * and a file mended part by part, in whatever parts, is the file mended whole, its reports joined the whole report.
 * Order: 1, 2, 3, 4, 5 (the cube or the part ends past the file's length, an empty part too), 18 (positions or olds has fewer places than the part
 * has bytes). */
OLSKETINA_NODISCARD uint32_t olsketina_padding_mend(
    const uint32_t layout[OLSKETINA_WORDS(OLSKETINA_LAYOUT_WORDS)], uint64_t first, uint64_t length,
    uint8_t *part, size_t part_len, uint64_t *positions, size_t positions_len, uint8_t *olds, size_t olds_len, uint64_t *count, size_t *fault);

/* ---- atoms in scan order: columns fastest, then rows, then surfaces */

/* bytes of an atom */
#define OLSKETINA_ATOM_BYTES 32

/* words of a walk: the next atom's byte position, and the raw index of its first element; how many columns of its line, rows of its surface and
 * channels from its first one on are left, its own counted (no channel: no atom is left); of the cube the precision, the columns of a line, the rows
 * of a surface, the elements of a channel; then bytes from the last atom of a line to the first of the next line, bytes from the last atom of a
 * surface to the first of the next surface, and elements between those two. A sender hands them on and need not look at them. */
#define OLSKETINA_WALK_POSITION 0
#define OLSKETINA_WALK_INDEX 1
#define OLSKETINA_WALK_COLUMNS 2
#define OLSKETINA_WALK_ROWS 3
#define OLSKETINA_WALK_CHANNELS 4
#define OLSKETINA_WALK_PRECISION 5
#define OLSKETINA_WALK_WIDTH 6
#define OLSKETINA_WALK_HEIGHT 7
#define OLSKETINA_WALK_PLANE 8
#define OLSKETINA_WALK_LINE 9
#define OLSKETINA_WALK_SURFACE 10
#define OLSKETINA_WALK_GROUP 11
#define OLSKETINA_WALK_WORDS 12

/* Writes the walk before the first atom of a cube. Refused exactly where olsketina_cube_pack with a buffer of buffer_len bytes is, by the same number
 * and index; no buffer is lent.
 * Order: 1, 2, 3, 4, 6, 5, then 7 of int8 or 26 of fp16 (fault: the least raw index at fault). */
OLSKETINA_NODISCARD uint32_t olsketina_walk_start(
    const uint32_t layout[OLSKETINA_WORDS(OLSKETINA_LAYOUT_WORDS)],
    const int16_t *elements, size_t elements_len, size_t buffer_len, uint64_t walk[OLSKETINA_WORDS(OLSKETINA_WALK_WORDS)], size_t *fault);

/* Gives the next atom and returns 1: where it begins is stored in *position, its bytes in bytes, padding as 0, and the walk's words become those
 * behind it. Returns 0 where none is left; nothing is written then.
 *
 *     while (olsketina_walk_step(walk, elements, elements_len, &position, bytes))
 *         send(position, bytes);
 *
 * Where each step gets the walk last handed back and the elements of the start, every atom is given once, surfaces * height * width in all, then 0
 * for ever; each written at its position, they leave what olsketina_cube_pack leaves. A step goes on by sums alone. Any other words and elements, NaN
 * too, are taken: an element that is missing is 0, and where a sum would pass 64 bits none is left.
 * Refuses nothing. */
OLSKETINA_NODISCARD uint32_t olsketina_walk_step(
    uint64_t walk[OLSKETINA_WORDS(OLSKETINA_WALK_WORDS)], const int16_t *elements, size_t elements_len,
    uint64_t *position, uint8_t bytes[OLSKETINA_WORDS(OLSKETINA_ATOM_BYTES)]);

/* ---- regions of one cube (the scope paper's stalls) */

/* words of a box: its first channel, row and column, then how many of each */
#define OLSKETINA_BOX_CHANNEL 0
#define OLSKETINA_BOX_ROW 1
#define OLSKETINA_BOX_COLUMN 2
#define OLSKETINA_BOX_CHANNELS 3
#define OLSKETINA_BOX_ROWS 4
#define OLSKETINA_BOX_COLUMNS 5
#define OLSKETINA_BOX_WORDS 6

/* words of a slot: placed (0 is empty, any other is placed), the id of the region's owner (1 to 65535, the scope paper's pupil's number), then the
 * rectangle. The last five of an empty slot mean nothing. */
#define OLSKETINA_SLOT_PLACED 0
#define OLSKETINA_SLOT_OWNER 1
#define OLSKETINA_SLOT_COLUMN 2
#define OLSKETINA_SLOT_ROW 3
#define OLSKETINA_SLOT_COLUMNS 4
#define OLSKETINA_SLOT_ROWS 5
#define OLSKETINA_SLOT_WORDS 6

/* words of a table: those of its layout, then those of each slot; OLSKETINA_TABLE_SLOT(n) is the index of slot n's first word */
#define OLSKETINA_SLOTS 16
#define OLSKETINA_TABLE_LAYOUT 0
#define OLSKETINA_TABLE_SLOT(n) (OLSKETINA_LAYOUT_WORDS + OLSKETINA_SLOT_WORDS * (n))
#define OLSKETINA_TABLE_WORDS OLSKETINA_TABLE_SLOT(OLSKETINA_SLOTS)

/* Writes the table of a layout with every slot empty; the calls on it check the layout.
 * Refuses nothing. */
void olsketina_regions_empty(
    const uint32_t layout[OLSKETINA_WORDS(OLSKETINA_LAYOUT_WORDS)], uint32_t table[OLSKETINA_WORDS(OLSKETINA_TABLE_WORDS)]);

/* Places a region of an owner in an empty slot: the slot's words are written, 1 as placed, and every other word stays.
 * Order: 1, 2, 3, 4, 25, 8, 9, 10. */
OLSKETINA_NODISCARD uint32_t olsketina_regions_place(
    uint32_t table[OLSKETINA_WORDS(OLSKETINA_TABLE_WORDS)],
    uint32_t slot, uint32_t id, uint32_t column, uint32_t row, uint32_t columns, uint32_t rows, size_t *fault);

/* Writes the elements of a box, counted from the corner of the owner's region in a slot, and no other byte.
 * Order: 1, 2, 3, 4, 8, 25, 9, 6, 5, then 7 of int8 or 26 of fp16 (fault: the least index at fault). */
OLSKETINA_NODISCARD uint32_t olsketina_regions_edit(
    const uint32_t table[OLSKETINA_WORDS(OLSKETINA_TABLE_WORDS)],
    uint32_t slot, uint32_t id, const uint32_t box[OLSKETINA_WORDS(OLSKETINA_BOX_WORDS)],
    const int16_t *elements, size_t elements_len, uint8_t *buffer, size_t buffer_len, size_t *fault);

/* Reads the elements of a box, counted from the corner of the owner's region in a slot.
 * Order: 1, 2, 3, 4, 8, 25, 9, 6, 5. */
OLSKETINA_NODISCARD uint32_t olsketina_regions_read(
    const uint32_t table[OLSKETINA_WORDS(OLSKETINA_TABLE_WORDS)],
    uint32_t slot, uint32_t id, const uint32_t box[OLSKETINA_WORDS(OLSKETINA_BOX_WORDS)],
    const uint8_t *buffer, size_t buffer_len, int16_t *elements, size_t elements_len, size_t *fault);

/* Releases the owner's region in a slot: its elements become 0, and no other byte changes; the slot's words become 0, and every other word stays.
 * Order: 1, 2, 3, 4, 8, 25, 9, 5. */
OLSKETINA_NODISCARD uint32_t olsketina_regions_release(
    uint32_t table[OLSKETINA_WORDS(OLSKETINA_TABLE_WORDS)],
    uint32_t slot, uint32_t id, uint8_t *buffer, size_t buffer_len, size_t *fault);

/* The byte at which an element begins, counted from the corner of the owner's region in a slot, stored in *value.
 * Order: 1, 2, 3, 4, 8, 25, 9. */
OLSKETINA_NODISCARD uint32_t olsketina_regions_position(
    const uint32_t table[OLSKETINA_WORDS(OLSKETINA_TABLE_WORDS)],
    uint32_t slot, uint32_t id, uint32_t channel, uint32_t row, uint32_t column, uint64_t *value, size_t *fault);

/* How many elements the owner's region in a slot has, stored in *value.
 * Order: 1, 2, 3, 4, 8, 25, 9. */
OLSKETINA_NODISCARD uint32_t olsketina_regions_count(
    const uint32_t table[OLSKETINA_WORDS(OLSKETINA_TABLE_WORDS)], uint32_t slot, uint32_t id, uint64_t *value, size_t *fault);

/* ---- direct-convolution weights */

/* words of a weight setting */
#define OLSKETINA_WEIGHTS_KERNELS 0
#define OLSKETINA_WEIGHTS_CHANNELS 1
#define OLSKETINA_WEIGHTS_ROWS 2
#define OLSKETINA_WEIGHTS_COLUMNS 3
#define OLSKETINA_WEIGHTS_PRECISION 4
#define OLSKETINA_WEIGHTS_WORDS 5

/* Packs raw weights, filled with 0 to a multiple of 128 bytes; later bytes stay.
 * Order: 1, 2, 6, 5, then 7 of int8 or 26 of fp16 (fault: the least raw index at fault). */
OLSKETINA_NODISCARD uint32_t olsketina_weights_pack(
    const uint32_t weights[OLSKETINA_WORDS(OLSKETINA_WEIGHTS_WORDS)],
    const int16_t *elements, size_t elements_len, uint8_t *buffer, size_t buffer_len, size_t *fault);

/* Reads packed weights back into raw order.
 * Order: 1, 2, 6, 5. */
OLSKETINA_NODISCARD uint32_t olsketina_weights_unpack(
    const uint32_t weights[OLSKETINA_WORDS(OLSKETINA_WEIGHTS_WORDS)],
    const uint8_t *buffer, size_t buffer_len, int16_t *elements, size_t elements_len, size_t *fault);

/* The byte at which an element begins, stored in *value.
 * Order: 1, 2, 9. */
OLSKETINA_NODISCARD uint32_t olsketina_weights_position(
    const uint32_t weights[OLSKETINA_WORDS(OLSKETINA_WEIGHTS_WORDS)],
    uint32_t kernel, uint32_t channel, uint32_t row, uint32_t column, uint64_t *value, size_t *fault);

/* How many elements a setting has, stored in *value.
 * Order: 1, 2. */
OLSKETINA_NODISCARD uint32_t olsketina_weights_count(
    const uint32_t weights[OLSKETINA_WORDS(OLSKETINA_WEIGHTS_WORDS)], uint64_t *value, size_t *fault);

/* How many bytes its packed surface has, filled to a multiple of 128, stored in *value.
 * Order: 1, 2. */
OLSKETINA_NODISCARD uint32_t olsketina_weights_extent(
    const uint32_t weights[OLSKETINA_WORDS(OLSKETINA_WEIGHTS_WORDS)], uint64_t *value, size_t *fault);

/* ---- pixel images */

/* words of an image's setting; docs/REFUSALS.md, 20, has each format code with its channels and precision */
#define OLSKETINA_IMAGE_FORMAT 0
#define OLSKETINA_IMAGE_WIDTH 1
#define OLSKETINA_IMAGE_HEIGHT 2
#define OLSKETINA_IMAGE_CHANNELS 3
#define OLSKETINA_IMAGE_PRECISION 4
#define OLSKETINA_IMAGE_X_OFFSET 5
#define OLSKETINA_IMAGE_START 6
#define OLSKETINA_IMAGE_LINE 7
#define OLSKETINA_IMAGE_WORDS 8

/* Whether a pixel image's setting is valid.
 * Order: 19, 1, 20, 21, 22. */
OLSKETINA_NODISCARD uint32_t olsketina_pixels_setting(
    const uint32_t image[OLSKETINA_WORDS(OLSKETINA_IMAGE_WORDS)], size_t *fault);

/* The byte at which pixel (x, y) begins, stored in *value.
 * Order: 19, 1, 20, 21, 22, 23. */
OLSKETINA_NODISCARD uint32_t olsketina_pixels_position(
    const uint32_t image[OLSKETINA_WORDS(OLSKETINA_IMAGE_WORDS)], uint32_t x, uint32_t y, uint64_t *value, size_t *fault);

/* ---- integer conversion */

/* (d - offset) * scale over 2^shift, rounded to the nearest whole number, halves away from zero, then held to the precision's range, stored in
 * *value; in *held 1 where the rounded value lay beyond the range, else 0.
 * Order: 2, 16. */
OLSKETINA_NODISCARD uint32_t olsketina_quantize_convert(
    int32_t d, int16_t offset, int16_t scale, uint32_t shift, uint32_t precision, int16_t *value, uint32_t *held, size_t *fault);

/* ---- a camera's picture into a region */

/* Paints the owner's region in a slot from the pixels of an image: component n of pixel (x, y), converted to the cube's precision as by
 * olsketina_quantize_convert, becomes the element of channel n, row y and column x of the region; no other byte is written. How many components
 * (not pixels) were held to the range is stored in *held. Components are numbered from the pixel's first byte on and are unsigned numbers of one or
 * two bytes, the low one first; those of T_R16_I are signed, and T_R10 and T_R12 have the low 10 or 12 bits. No fp16 format is taken, and no fp16
 * cube. The pixel buffer may end with the last pixel.
 * Order: 19, 1, 20, 21, 22 of the image; 29; 2 of the cube's precision, 16; 30; 1, 3, 4 of the cube; 8, 25, 9 (the image has another width or height
 * than the region, too), 5. */
OLSKETINA_NODISCARD uint32_t olsketina_parlour_paint(
    const uint32_t table[OLSKETINA_WORDS(OLSKETINA_TABLE_WORDS)], uint32_t slot, uint32_t id,
    const uint32_t image[OLSKETINA_WORDS(OLSKETINA_IMAGE_WORDS)], const uint8_t *pixels, size_t pixels_len,
    int16_t offset, int16_t scale, uint32_t shift, uint8_t *buffer, size_t buffer_len, uint64_t *held, size_t *fault);

/* ---- two-table lookup */

/* entries of the two tables */
#define OLSKETINA_X_ENTRIES 65
#define OLSKETINA_Y_ENTRIES 257

/* words of a table's settings; of an exponential X table the first is its offset */
#define OLSKETINA_SETTINGS_SELECT 0
#define OLSKETINA_SETTINGS_OFFSET 0
#define OLSKETINA_SETTINGS_START 1
#define OLSKETINA_SETTINGS_END 2
#define OLSKETINA_SETTINGS_WORDS 3

/* the four slopes, each with a scale and a shift */
#define OLSKETINA_SLOPE_X_BELOW 0
#define OLSKETINA_SLOPE_X_ABOVE 1
#define OLSKETINA_SLOPE_Y_BELOW 2
#define OLSKETINA_SLOPE_Y_ABOVE 3
#define OLSKETINA_SLOPES 4

/* samples of each kind */
#define OLSKETINA_COUNTER_X 0
#define OLSKETINA_COUNTER_Y 1
#define OLSKETINA_COUNTER_UNDERFLOW 2
#define OLSKETINA_COUNTER_OVERFLOW 3
#define OLSKETINA_COUNTER_PRIORITY 4
#define OLSKETINA_COUNTERS 5

/* Answers every sample from a linear X table and the Y table, and adds the samples of each kind to the counters. The outputs are memory of their
 * own, never the samples'. priority, overflow and underflow say which table answers where both could: false is X, true is Y.
 * Order: 11, 12, 13, 14, 15, 16, 18, 17. */
OLSKETINA_NODISCARD uint32_t olsketina_lut_run_linear(
    const int32_t x_settings[OLSKETINA_WORDS(OLSKETINA_SETTINGS_WORDS)], const int32_t y_settings[OLSKETINA_WORDS(OLSKETINA_SETTINGS_WORDS)],
    const int16_t scales[OLSKETINA_WORDS(OLSKETINA_SLOPES)], const int32_t shifts[OLSKETINA_WORDS(OLSKETINA_SLOPES)],
    bool priority, bool overflow, bool underflow,
    const int16_t *x_entries, size_t x_entries_len, const int16_t *y_entries, size_t y_entries_len,
    const int32_t *samples, size_t samples_len, int32_t *outputs, size_t outputs_len,
    uint32_t counters[OLSKETINA_WORDS(OLSKETINA_COUNTERS)], size_t *fault);

/* The same with an exponential X table: x_settings[OLSKETINA_SETTINGS_OFFSET] is its offset.
 * Order: 11, 12, 13, 14, 15, 16, 18, 17. */
OLSKETINA_NODISCARD uint32_t olsketina_lut_run_exponential(
    const int32_t x_settings[OLSKETINA_WORDS(OLSKETINA_SETTINGS_WORDS)], const int32_t y_settings[OLSKETINA_WORDS(OLSKETINA_SETTINGS_WORDS)],
    const int16_t scales[OLSKETINA_WORDS(OLSKETINA_SLOPES)], const int32_t shifts[OLSKETINA_WORDS(OLSKETINA_SLOPES)],
    bool priority, bool overflow, bool underflow,
    const int16_t *x_entries, size_t x_entries_len, const int16_t *y_entries, size_t y_entries_len,
    const int32_t *samples, size_t samples_len, int32_t *outputs, size_t outputs_len,
    uint32_t counters[OLSKETINA_WORDS(OLSKETINA_COUNTERS)], size_t *fault);

/* ---- the ready-made settings of the camera curve */

/* which table a priority bit names, if any; any other word leaves it unnamed too */
#define OLSKETINA_CHOICE_X 0
#define OLSKETINA_CHOICE_Y 1
#define OLSKETINA_CHOICE_UNNAMED 2

/* the priority words that are stored, each 0 (X) or 1 (Y); they are passed on to olsketina_lut_run_linear by value */
#define OLSKETINA_PRIORITY 0
#define OLSKETINA_PRIORITY_OVERFLOW 1
#define OLSKETINA_PRIORITY_UNDERFLOW 2
#define OLSKETINA_PRIORITIES 3

/* Writes the ready-made settings for olsketina_lut_run_linear. priority, overflow and underflow are choices (OLSKETINA_CHOICE_..).
 * Order: 14. */
OLSKETINA_NODISCARD uint32_t olsketina_camera_ready_made(
    int32_t select, uint32_t priority, uint32_t overflow, uint32_t underflow,
    int32_t x_settings[OLSKETINA_WORDS(OLSKETINA_SETTINGS_WORDS)], int32_t y_settings[OLSKETINA_WORDS(OLSKETINA_SETTINGS_WORDS)],
    int16_t scales[OLSKETINA_WORDS(OLSKETINA_SLOPES)], int32_t shifts[OLSKETINA_WORDS(OLSKETINA_SLOPES)],
    uint32_t priorities[OLSKETINA_WORDS(OLSKETINA_PRIORITIES)], size_t *fault);

/* ---- the camera curve (libolsketina_curve.a, stored, or libolsketina_curve_computed.a: the same answers from either) */

/* Entry i of the Y curve; past the last entry (256), the last.
 * Refuses nothing. */
OLSKETINA_NODISCARD int16_t olsketina_camera_y_entry(uint32_t i);

/* Entry j of the X curve; past the last entry (64), the last.
 * Refuses nothing. */
OLSKETINA_NODISCARD int16_t olsketina_camera_x_entry(uint32_t j);

/* Writes the entries of the Y curve.
 * Refuses nothing. */
void olsketina_camera_y_table(int16_t entries[OLSKETINA_WORDS(OLSKETINA_Y_ENTRIES)]);

/* Writes the entries of the X curve.
 * Refuses nothing. */
void olsketina_camera_x_table(int16_t entries[OLSKETINA_WORDS(OLSKETINA_X_ENTRIES)]);

/* ---- sheets */

/* words of a sheet's state: how many lines ended (low word, high word), the length of the line in progress (held at 121), whether a frame was
 * accepted (0 is no, any other yes), then the words of its table. Beside it stands `text`, the first bytes of the line in progress. A word that
 * already says what is to be written stays. */
#define OLSKETINA_STATE_LINES_LOW 0
#define OLSKETINA_STATE_LINES_HIGH 1
#define OLSKETINA_STATE_LENGTH 2
#define OLSKETINA_STATE_FRAMED 3
#define OLSKETINA_STATE_TABLE 4
#define OLSKETINA_STATE_WORDS (OLSKETINA_STATE_TABLE + OLSKETINA_TABLE_WORDS)

/* bytes of a line's text */
#define OLSKETINA_TEXT_BYTES 120

/* words of a row: 1, then number, refusal, index at fault and value of the line that ended; all 0 where none ended */
#define OLSKETINA_ROW_ENDED 0
#define OLSKETINA_ROW_LINE 1
#define OLSKETINA_ROW_ANSWER 2
#define OLSKETINA_ROW_FAULT 3
#define OLSKETINA_ROW_VALUE 4
#define OLSKETINA_ROW_WORDS 5

/* Writes the state at the beginning of a sheet.
 * Refuses nothing. */
void olsketina_script_begin(uint32_t state[OLSKETINA_WORDS(OLSKETINA_STATE_WORDS)], uint8_t text[OLSKETINA_WORDS(OLSKETINA_TEXT_BYTES)]);

/* Reads a part of the input up to its first newline, or whole; returns how many bytes it read: the rest is fed by further calls. row has the line
 * that ended.
 * Refuses nothing: a line's refusal is in its row. */
OLSKETINA_NODISCARD size_t olsketina_script_feed(
    uint32_t state[OLSKETINA_WORDS(OLSKETINA_STATE_WORDS)], uint8_t text[OLSKETINA_WORDS(OLSKETINA_TEXT_BYTES)],
    const uint8_t *part, size_t part_len, uint64_t row[OLSKETINA_WORDS(OLSKETINA_ROW_WORDS)]);

/* The end of the input: a last line may lack its newline. row has the line that ended.
 * Refuses nothing: a line's refusal is in its row. */
void olsketina_script_finish(
    uint32_t state[OLSKETINA_WORDS(OLSKETINA_STATE_WORDS)], uint8_t text[OLSKETINA_WORDS(OLSKETINA_TEXT_BYTES)],
    uint64_t row[OLSKETINA_WORDS(OLSKETINA_ROW_WORDS)]);

/* Writes the header that a sheet prints first; returns how many bytes it has, its newline counted. The bytes behind it become 0.
 * Refuses nothing. */
OLSKETINA_NODISCARD uint32_t olsketina_script_header_text(uint8_t text[OLSKETINA_WORDS(OLSKETINA_TEXT_BYTES)]);

/* Writes the text of a row by its number, refusal and value (the words OLSKETINA_ROW_LINE, _ANSWER and _VALUE of a line that ended); returns how
 * many bytes it has, its newline counted. The bytes behind it become 0.
 * Refuses nothing. */
OLSKETINA_NODISCARD uint32_t olsketina_script_row_text(
    uint64_t line, uint32_t answer, uint64_t value, uint8_t text[OLSKETINA_WORDS(OLSKETINA_TEXT_BYTES)]);

#ifdef __cplusplus
}
#endif

#endif
