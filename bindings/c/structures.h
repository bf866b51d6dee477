/* Random Arrow structures of every format that is read, in blocks of their exact length, by Arrow's rules. For the tests alone. */
#ifndef STRUCTURES_H
#define STRUCTURES_H

#include "codrask.h"

#include <stdbool.h>
#include <stdio.h>
#include <stdlib.h>
#include <string.h>

enum { MOST_SLOTS = 512, MOST_PIECES = 8192, MOST_DEPTH = 5, BITS = 1000 };

/* An array, and what Arrow's rules say of it. */
struct slot {
    struct ArrowSchema *schema;
    struct ArrowArray *array;
    bool whole;   /* every row of it is looked at */
    bool nulls;   /* rows may be null */
    bool values;  /* it is a dictionary, whose codes say whether rows may be null */
    bool entries; /* it has the keys and values of a map */
};

struct structure {
    struct slot slots[MOST_SLOTS];
    size_t count;
    void *blocks[MOST_PIECES];
    size_t sizes[MOST_PIECES];
    size_t block_count;
};

static uint64_t dice = 1;

static size_t roll(size_t n) {
    dice = dice * 6364136223846793005u + 1442695040888963407u;
    return n ? (size_t)(dice >> 33) % n : 0;
}

/* A block of just so many zero bytes. */
static void *exact(struct structure *s, size_t size) {
    void *bytes = malloc(size);
    if (s->block_count == MOST_PIECES || (!bytes && size))
        abort();
    if (size)
        memset(bytes, 0, size);
    s->sizes[s->block_count] = size;
    s->blocks[s->block_count++] = bytes;
    return bytes;
}

/* How many bytes the block has that begins there; 0 where none does. */
static inline size_t size_of_block(const struct structure *s, const void *bytes) {
    for (size_t i = 0; bytes && i < s->block_count; i++)
        if (s->blocks[i] == bytes)
            return s->sizes[i];
    return 0;
}

/* The lengths of the buffers of an array and of all below it; their number. */
static inline size_t put_lengths(const struct structure *s, const struct ArrowArray *array, size_t *lengths) {
    size_t count = (size_t)array->n_buffers;
    for (size_t i = 0; i < count; i++)
        lengths[i] = size_of_block(s, array->buffers[i]);
    for (int64_t i = 0; i < array->n_children; i++)
        count += put_lengths(s, array->children[i], lengths + count);
    return array->dictionary ? count + put_lengths(s, array->dictionary, lengths + count) : count;
}

static void tear_down(struct structure *s) {
    for (size_t i = 0; i < s->block_count; i++)
        free(s->blocks[i]);
    s->count = s->block_count = 0;
}

static char *text(struct structure *s, const char *characters) {
    char *copy = exact(s, strlen(characters) + 1);
    strcpy(copy, characters);
    return copy;
}

static void leave_schema(struct ArrowSchema *schema) {
    schema->release = NULL;
}

static void leave_array(struct ArrowArray *array) {
    array->release = NULL;
}

/* ---- parts ---- */

static size_t new_slot(struct structure *s, const char *format, size_t length, size_t offset, size_t buffers, size_t children) {
    if (s->count == MOST_SLOTS)
        abort();
    struct ArrowSchema *schema = exact(s, sizeof *schema);
    struct ArrowArray *array = exact(s, sizeof *array);
    schema->format = text(s, format);
    schema->release = leave_schema;
    schema->n_children = array->n_children = (int64_t)children;
    schema->children = children ? exact(s, children * sizeof *schema->children) : NULL;
    array->children = children ? exact(s, children * sizeof *array->children) : NULL;
    array->release = leave_array;
    array->length = (int64_t)length;
    array->offset = (int64_t)offset;
    array->n_buffers = (int64_t)buffers;
    array->buffers = exact(s, buffers * sizeof *array->buffers);
    s->slots[s->count] = (struct slot){schema, array, true, false, false, false};
    return s->count++;
}

static bool bit_of(const uint8_t *bits, size_t i) {
    return bits[i / 8] >> i % 8 & 1;
}

static size_t unset_bits(const uint8_t *bits, size_t from, size_t length) {
    size_t unset = 0;
    for (size_t i = from; i < from + length; i++)
        unset += !bit_of(bits, i);
    return unset;
}

/* Whether rows may be null, which are, and how many that is. */
static void put_nulls(struct structure *s, size_t at, bool nulls) {
    struct ArrowArray *array = s->slots[at].array;
    size_t length = (size_t)array->length, offset = (size_t)array->offset, size = (offset + length + 7) / 8, count = 0;
    bool nullable = roll(2);
    s->slots[at].schema->flags = nullable ? ARROW_FLAG_NULLABLE : 0;
    s->slots[at].nulls = nullable && nulls;
    if (roll(2)) {
        uint8_t *bits = exact(s, size);
        for (size_t i = 0; i < size; i++)
            bits[i] = (uint8_t)roll(256);
        for (size_t i = offset; i < offset + length && !s->slots[at].nulls; i++)
            bits[i / 8] = (uint8_t)(bits[i / 8] | 1 << i % 8);
        count = unset_bits(bits, offset, length);
        array->buffers[0] = bits;
    }
    array->null_count = roll(2) ? -1 : (int64_t)count;
}

/* Whether row `i`, counted from the buffers' first, is null. */
static bool row_is_null(const struct ArrowArray *array, size_t i) {
    const uint8_t *bits = array->buffers[0];
    return bits && !bit_of(bits, i);
}

/* Nulls of a child in rows of its parent that are null, so many rows to one: also where the child may have no null. */
static void put_nulls_below(struct structure *s, size_t at, size_t child, size_t each) {
    const struct ArrowArray *parent = s->slots[at].array;
    struct ArrowArray *array = s->slots[child].array;
    uint8_t *bits = array->n_buffers ? (uint8_t *)(uintptr_t)array->buffers[0] : NULL;
    size_t first = (size_t)parent->offset * each, end = first + (size_t)parent->length * each;
    for (size_t row = first; bits && row < end; row++)
        if (row_is_null(parent, row / each) && roll(2)) {
            size_t i = (size_t)array->offset + row;
            bits[i / 8] = (uint8_t)(bits[i / 8] & ~(1u << i % 8));
        }
    if (bits && array->null_count >= 0)
        array->null_count = (int64_t)unset_bits(bits, (size_t)array->offset, (size_t)array->length);
}

static void write_number(void *numbers, size_t width, size_t i, uint64_t value) {
    memcpy((uint8_t *)numbers + i * width, &value, width);
}

/* Offsets that rise by less than `step`; the last one. Where there is no row, there may be no offset. */
static size_t put_offsets(struct structure *s, struct ArrowArray *array, size_t width, size_t step) {
    size_t rows = (size_t)(array->length + array->offset), end = roll(4);
    if (!rows && roll(3)) {
        array->buffers[1] = roll(2) ? NULL : exact(s, 0);
        return 0;
    }
    uint8_t *offsets = exact(s, (rows + 1) * width);
    write_number(offsets, width, 0, end);
    for (size_t i = 1; i <= rows; i++)
        write_number(offsets, width, i, end += roll(step));
    array->buffers[1] = offsets;
    return end;
}

static uint8_t *letters(struct structure *s, size_t size) {
    uint8_t *bytes = exact(s, size);
    for (size_t i = 0; i < size; i++)
        bytes[i] = (uint8_t)('a' + roll(26));
    return bytes;
}

/* ---- layouts ---- */

static size_t build(struct structure *s, size_t length, int depth, bool nulls);

/* Makes an array a child; where `whole` is false, some rows of it may not be looked at. */
static void join(struct structure *s, size_t at, size_t place, size_t child, const char *name, bool whole) {
    s->slots[at].schema->children[place] = s->slots[child].schema;
    s->slots[at].array->children[place] = s->slots[child].array;
    s->slots[child].schema->name = name ? text(s, name) : NULL;
    s->slots[child].whole = s->slots[child].whole && whole;
}

static void build_numbers(struct structure *s, size_t at, size_t width) {
    struct ArrowArray *array = s->slots[at].array;
    size_t rows = (size_t)(array->length + array->offset), size = width == BITS ? (rows + 7) / 8 : rows * width;
    uint8_t *bytes = exact(s, size);
    for (size_t i = 0; i < size; i++)
        bytes[i] = (uint8_t)roll(256);
    array->buffers[1] = bytes;
}

static void build_view(struct ArrowArray *array, size_t i, size_t heaps) {
    struct codrask_view view = {{0}};
    uint32_t size = (uint32_t)roll(20), heap = (uint32_t)roll(heaps), start = (uint32_t)roll(20);
    if (!heaps)
        size %= 13;
    memcpy(view.bytes, &size, 4);
    if (size <= 12)
        memset(view.bytes + 4, 'q', size);
    else {
        memcpy(view.bytes + 4, (const uint8_t *)array->buffers[2 + heap] + start, 4);
        memcpy(view.bytes + 8, &heap, 4);
        memcpy(view.bytes + 12, &start, 4);
    }
    memcpy((uint8_t *)(uintptr_t)array->buffers[1] + 16 * i, view.bytes, 16);
}

static void build_views(struct structure *s, size_t at, size_t heaps) {
    struct ArrowArray *array = s->slots[at].array;
    size_t rows = (size_t)(array->length + array->offset);
    int64_t *sizes = exact(s, heaps * sizeof *sizes);
    array->buffers[1] = exact(s, 16 * rows);
    array->buffers[2 + heaps] = sizes;
    for (size_t i = 0; i < heaps; i++) {
        sizes[i] = (int64_t)(40 + roll(9));
        array->buffers[2 + i] = letters(s, (size_t)sizes[i]);
    }
    for (size_t i = 0; i < rows; i++)
        build_view(array, i, heaps);
}

static void build_list_views(struct structure *s, size_t at, size_t width, size_t elements) {
    struct ArrowArray *array = s->slots[at].array;
    size_t rows = (size_t)(array->length + array->offset);
    uint8_t *offsets = exact(s, rows * width), *sizes = exact(s, rows * width);
    for (size_t i = 0; i < rows; i++) {
        size_t offset = roll(elements + 1);
        write_number(offsets, width, i, offset);
        write_number(sizes, width, i, roll(elements - offset + 1 < 4 ? elements - offset + 1 : 4));
    }
    array->buffers[1] = offsets;
    array->buffers[2] = sizes;
}

static void build_codes(struct structure *s, size_t at, size_t width, size_t values) {
    struct ArrowArray *array = s->slots[at].array;
    size_t rows = (size_t)(array->length + array->offset);
    uint8_t *codes = exact(s, rows * width);
    for (size_t i = 0; i < rows; i++)
        write_number(codes, width, i, row_is_null(array, i) && s->slots[at].nulls ? roll(250) : roll(values));
    array->buffers[1] = codes;
}

static const char *element_name(void) {
    static const char *const names[] = {"item", "", NULL, "an element"};
    return names[roll(4)];
}

static size_t build_flat(struct structure *s, size_t length, size_t offset, bool nulls) {
    static const struct {
        const char *format;
        size_t width;
    } formats[] = {
        {"b", BITS}, {"c", 1},        {"C", 1},         {"s", 2},         {"S", 2},          {"i", 4},           {"I", 4},
        {"l", 8},    {"L", 8},        {"e", 2},         {"f", 4},         {"g", 8},          {"tdD", 4},         {"tdm", 8},
        {"tts", 4},  {"ttm", 4},      {"ttu", 8},       {"ttn", 8},       {"tss:", 8},       {"tsm:UTC", 8},     {"tsu:Europe/Rome", 8},
        {"tsn:", 8}, {"tDs", 8},      {"tDm", 8},       {"tDu", 8},       {"tDn", 8},        {"tiM", 4},         {"tiD", 8},
        {"tin", 16}, {"d:38,10", 16}, {"d:9,-2,32", 4}, {"d:18,3,64", 8}, {"d:1,0,128", 16}, {"d:76,5,256", 32}, {"w:0", 0},
        {"w:1", 1},  {"w:2", 2},      {"w:3", 3},       {"w:4", 4},       {"w:8", 8},        {"w:20", 20}};
    size_t which = roll(sizeof formats / sizeof *formats);
    size_t at = new_slot(s, formats[which].format, length, offset, 2, 0);
    put_nulls(s, at, nulls);
    build_numbers(s, at, formats[which].width);
    return at;
}

/* Nulls, whatever the flags say. */
static size_t build_nulls(struct structure *s, size_t length, size_t offset) {
    size_t at = new_slot(s, "n", length, offset, 0, 0);
    s->slots[at].schema->flags = roll(2) ? ARROW_FLAG_NULLABLE : 0;
    s->slots[at].array->null_count = roll(2) ? -1 : (int64_t)length;
    s->slots[at].nulls = true;
    return at;
}

static size_t build_values(struct structure *s, size_t length, size_t offset, bool nulls) {
    static const char *const formats[] = {"u", "z", "U", "Z"};
    size_t which = roll(4), at = new_slot(s, formats[which], length, offset, 3, 0);
    put_nulls(s, at, nulls);
    size_t end = put_offsets(s, s->slots[at].array, which < 2 ? 4 : 8, 20);
    s->slots[at].array->buffers[2] = end || roll(2) ? letters(s, end) : NULL;
    return at;
}

static size_t build_text_views(struct structure *s, size_t length, size_t offset, bool nulls) {
    size_t heaps = roll(4), at = new_slot(s, roll(2) ? "vu" : "vz", length, offset, 3 + heaps, 0);
    put_nulls(s, at, nulls);
    build_views(s, at, heaps);
    return at;
}

static size_t build_lists(struct structure *s, size_t length, size_t offset, int depth, bool nulls) {
    bool large = roll(2);
    size_t at = new_slot(s, large ? "+L" : "+l", length, offset, 2, 1);
    put_nulls(s, at, nulls);
    size_t end = put_offsets(s, s->slots[at].array, large ? 8 : 4, 4);
    size_t child = build(s, end + roll(3), depth + 1, true);
    join(s, at, 0, child, element_name(), false);
    return at;
}

/* Keys, none of which is null, and values. */
static size_t build_entries(struct structure *s, size_t length, int depth) {
    size_t at = new_slot(s, "+s", length, roll(2), 1, 2);
    s->slots[at].entries = true;
    for (size_t i = 0; i < 2; i++) {
        size_t child = build(s, (size_t)s->slots[at].array->offset + length + roll(2), depth + 1, i);
        join(s, at, i, child, i ? "value" : "key", false);
    }
    return at;
}

static size_t build_maps(struct structure *s, size_t length, size_t offset, int depth, bool nulls) {
    size_t at = new_slot(s, "+m", length, offset, 2, 1);
    put_nulls(s, at, nulls);
    s->slots[at].schema->flags |= roll(2) ? ARROW_FLAG_MAP_KEYS_SORTED : 0;
    size_t end = put_offsets(s, s->slots[at].array, 4, 4);
    size_t child = build_entries(s, end + roll(3), depth + 1);
    join(s, at, 0, child, "entries", false);
    return at;
}

static size_t build_lists_by_views(struct structure *s, size_t length, size_t offset, int depth, bool nulls) {
    bool large = roll(2);
    size_t at = new_slot(s, large ? "+vL" : "+vl", length, offset, 3, 1), elements = roll(7);
    put_nulls(s, at, nulls);
    size_t child = build(s, elements, depth + 1, true);
    join(s, at, 0, child, element_name(), true);
    build_list_views(s, at, large ? 8 : 4, elements);
    return at;
}

static size_t build_fixed(struct structure *s, size_t length, size_t offset, int depth, bool nulls) {
    static const char *const formats[] = {"+w:0", "+w:1", "+w:2", "+w:3"};
    size_t size = roll(4), at = new_slot(s, formats[size], length, offset, 1, 1);
    put_nulls(s, at, nulls);
    size_t child = build(s, (length + offset) * size + roll(2), depth + 1, true);
    join(s, at, 0, child, element_name(), false);
    put_nulls_below(s, at, child, size);
    return at;
}

static size_t build_records(struct structure *s, size_t length, size_t offset, int depth, bool nulls) {
    static const char *const names[] = {"a", "b", "a long name of a column", ""};
    size_t count = roll(4), at = new_slot(s, "+s", length, offset, 1, count);
    put_nulls(s, at, nulls);
    for (size_t i = 0; i < count; i++) {
        size_t child = build(s, length + offset + roll(2), depth + 1, true);
        join(s, at, i, child, names[roll(4)], false);
        put_nulls_below(s, at, child, 1);
    }
    return at;
}

static size_t build_dictionary(struct structure *s, size_t length, size_t offset, int depth, bool nulls) {
    static const char *const formats[] = {"c", "C", "s", "S", "i", "I", "l", "L"};
    size_t which = roll(8), values = 1 + roll(6), at = new_slot(s, formats[which], length, offset, 2, 0);
    put_nulls(s, at, nulls);
    s->slots[at].schema->flags |= roll(3) ? 0 : ARROW_FLAG_DICTIONARY_ORDERED;
    build_codes(s, at, (size_t)1 << which / 2, values);
    size_t dictionary = build(s, values, depth + 1, s->slots[at].nulls);
    s->slots[dictionary].schema->flags = roll(2) ? ARROW_FLAG_NULLABLE : 0;
    s->slots[dictionary].values = true;
    s->slots[at].schema->dictionary = s->slots[dictionary].schema;
    s->slots[at].array->dictionary = s->slots[dictionary].array;
    return at;
}

static size_t build_layout(struct structure *s, size_t length, int depth, bool nulls) {
    size_t offset = roll(2) ? 0 : roll(12);
    switch (roll(depth < MOST_DEPTH ? 11 : 4)) {
    case 0: return build_flat(s, length, offset, nulls);
    case 1: return build_values(s, length, offset, nulls);
    case 2: return build_text_views(s, length, offset, nulls);
    case 3: return nulls && !roll(2) ? build_nulls(s, length, offset) : build_flat(s, length, offset, nulls);
    case 4: return build_lists(s, length, offset, depth, nulls);
    case 5: return build_lists_by_views(s, length, offset, depth, nulls);
    case 6: return build_fixed(s, length, offset, depth, nulls);
    case 7: return build_dictionary(s, length, offset, depth, nulls);
    case 8: return build_maps(s, length, offset, depth, nulls);
    default: return build_records(s, length, offset, depth, nulls);
    }
}

/* Writes bytes after their number; the place behind them. */
static char *put_sized(char *at, const char *characters) {
    const int32_t size = (int32_t)strlen(characters);
    memcpy(at, &size, 4);
    memcpy(at + 4, characters, (size_t)size);
    return at + 4 + size;
}

/* Metadata of so many keys and values, in a block of their length. */
static const char *metadata_of(struct structure *s, const char *const *texts, int32_t keys) {
    size_t size = 4;
    for (int32_t i = 0; i < 2 * keys; i++)
        size += 4 + strlen(texts[i]);
    char *made = exact(s, size), *at = made + 4;
    memcpy(made, &keys, 4);
    for (int32_t i = 0; i < 2 * keys; i++)
        at = put_sized(at, texts[i]);
    return made;
}

/* Metadata, which may tell of an extension. */
static void put_metadata(struct structure *s, size_t at) {
    static const char *const texts[] = {"a key",
                                        "a value",
                                        "ARROW:extension:name",
                                        "an.extension",
                                        "ARROW:extension:metadata",
                                        "{\"of\": \"it\"}",
                                        "ARROW:extension:name",
                                        "a second one",
                                        "",
                                        ""};
    size_t from = roll(3), keys = roll(6 - from);
    s->slots[at].schema->metadata = metadata_of(s, texts + 2 * from, (int32_t)keys);
}

/* An array of so many rows; where `nulls` is false, of no null. */
static size_t build(struct structure *s, size_t length, int depth, bool nulls) {
    size_t at = build_layout(s, length, depth, nulls);
    if (!roll(4))
        put_metadata(s, at);
    return at;
}

/* The structure of a seed: slot 0 is its root. */
static void build_seed(struct structure *s, uint64_t seed) {
    dice = 977 * seed + 1;
    roll(2);
    build(s, roll(12), 0, true);
    s->slots[0].schema->name = roll(2) ? text(s, "root") : NULL;
}

#endif
