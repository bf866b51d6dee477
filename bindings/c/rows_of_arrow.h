/* Reads every row of an Arrow array by Arrow's rules, and its names and flags. It shares no code with what is tested, and tests
 * nothing but texts. For the tests alone. */
#ifndef ROWS_OF_ARROW_H
#define ROWS_OF_ARROW_H

#include "codrask.h"

#include <stdbool.h>
#include <stdlib.h>
#include <string.h>

/* What was read, in order; whether each text was one. */
struct sum {
    uint64_t seen;
    bool texts;
};

static void sum_up(struct sum *sum, uint64_t value) {
    sum->seen = (sum->seen ^ value) * 1099511628211u + 1;
}

static void sum_bytes(struct sum *sum, const uint8_t *bytes, size_t size) {
    sum_up(sum, size);
    for (size_t i = 0; i < size; i++)
        sum_up(sum, bytes[i]);
}

/* How many bytes a character has that starts with this byte and goes on with that; 0 of none. */
static size_t character(const uint8_t *at, size_t left) {
    static const uint32_t least[] = {0, 0, 0x80, 0x800, 0x10000};
    size_t size = at[0] < 0x80 ? 1 : at[0] >> 5 == 6 ? 2 : at[0] >> 4 == 14 ? 3 : at[0] >> 3 == 30 ? 4 : 0;
    uint32_t code = size == 1 ? at[0] : at[0] & (0x7fu >> size);
    if (!size || size > left)
        return 0;
    for (size_t i = 1; i < size; i++) {
        if (at[i] >> 6 != 2)
            return 0;
        code = code << 6 | (at[i] & 63);
    }
    return code < least[size] || code > 0x10ffff || (code >= 0xd800 && code < 0xe000) ? 0 : size;
}

static bool is_text(const uint8_t *bytes, size_t size) {
    for (size_t at = 0; at < size;) {
        size_t step = character(bytes + at, size - at);
        if (!step)
            return false;
        at += step;
    }
    return true;
}

/* A number of `width` bytes, with its sign where it has one. */
static int64_t whole(const void *numbers, size_t width, bool has_sign, int64_t i) {
    uint64_t value = 0;
    memcpy(&value, (const uint8_t *)numbers + (size_t)i * width, width);
    if (has_sign && width < 8 && value >> (8 * width - 1))
        value |= UINT64_MAX << 8 * width;
    return (int64_t)value;
}

static bool flag(const void *bits, int64_t i) {
    return ((const uint8_t *)bits)[i / 8] >> i % 8 & 1;
}

/* How many bytes a value of one width has that is no integer; -1 of other formats. */
static int64_t width_of_format(const char *format) {
    static const char *const of_4[] = {"f", "tdD", "tts", "ttm", "tiM"};
    const char *comma = strrchr(format, ',');
    for (size_t i = 0; i < sizeof of_4 / sizeof *of_4; i++)
        if (!strcmp(format, of_4[i]))
            return 4;
    switch (format[0]) {
    case 'e': return 2;
    case 'g': return 8;
    case 't': return strcmp(format, "tin") ? 8 : 16;
    case 'w': return strtol(format + 2, NULL, 10);
    case 'd': return comma && comma != strchr(format, ',') ? strtol(comma + 1, NULL, 10) / 8 : 16;
    default: return -1;
    }
}

static bool is_of_nulls(const char *format) {
    return !strcmp(format, "n");
}

static bool is_map(const char *format) {
    return !strcmp(format, "+m");
}

/* Whether an array is carried under its format. */
static bool is_opaque(const struct ArrowSchema *schema) {
    return !schema->dictionary && (width_of_format(schema->format) >= 0 || is_of_nulls(schema->format) || is_map(schema->format));
}

/* The value of a key of a schema, and how many bytes it has; no place where there is none. */
static const char *value_of_key(const struct ArrowSchema *schema, const char *key, int32_t *size) {
    const char *at = schema->metadata;
    int32_t left = 0, key_size;
    if (at)
        memcpy(&left, at, 4), at += 4;
    for (; left > 0; left--, at += 4 + *size) {
        memcpy(&key_size, at, 4);
        bool same = (size_t)key_size == strlen(key) && !memcmp(at + 4, key, strlen(key));
        at += 4 + key_size;
        memcpy(size, at, 4);
        if (same)
            return at + 4;
    }
    *size = 0;
    return NULL;
}

static const char *extension_of(const struct ArrowSchema *schema, int32_t *size) {
    return value_of_key(schema, "ARROW:extension:name", size);
}

/* Whether an array that is not carried under its format has a record all the same: of an extension, or of codes that are ordered. */
static inline bool is_under_record(const struct ArrowSchema *schema) {
    int32_t size;
    bool ordered = schema->dictionary && schema->flags & ARROW_FLAG_DICTIONARY_ORDERED;
    return !is_opaque(schema) && (ordered || extension_of(schema, &size));
}

/* The nodes of an array before its parts. */
static inline size_t own_nodes(const struct ArrowSchema *schema, const struct ArrowArray *array, bool nullable) {
    int64_t width = schema->dictionary ? -1 : width_of_format(schema->format);
    if (!schema->dictionary && is_of_nulls(schema->format))
        return 3;
    bool number = width == 1 || width == 2 || width == 4 || width == 8;
    size_t bitmap = nullable && array->buffers[0] && array->null_count;
    return 1 + bitmap + !!schema->dictionary + is_under_record(schema) + is_opaque(schema) + (width >= 0 && !number);
}

static void sum_row(struct sum *sum, const struct ArrowSchema *schema, const struct ArrowArray *array, int64_t row);

static void sum_value(struct sum *sum, const struct ArrowSchema *schema, const uint8_t *bytes, size_t size) {
    if (strchr(schema->format, 'u') || strchr(schema->format, 'U'))
        sum->texts = sum->texts && is_text(bytes, size);
    sum_bytes(sum, bytes, size);
}

static void sum_view(struct sum *sum, const struct ArrowSchema *schema, const struct ArrowArray *array, int64_t i) {
    const uint8_t *view = (const uint8_t *)array->buffers[1] + 16 * i;
    int64_t size = whole(view, 4, true, 0);
    if (size <= 12) {
        sum_value(sum, schema, view + 4, (size_t)size);
        return;
    }
    const uint8_t *heap = array->buffers[2 + whole(view, 4, true, 2)];
    sum_value(sum, schema, heap + whole(view, 4, true, 3), (size_t)size);
}

static void sum_elements(struct sum *sum, const struct ArrowSchema *schema, const struct ArrowArray *array, int64_t from, int64_t size) {
    sum_up(sum, (uint64_t)size);
    for (int64_t k = 0; k < size; k++)
        sum_row(sum, schema->children[0], array->children[0], from + k);
}

/* Values and lists between offsets. */
static void sum_between(struct sum *sum, const struct ArrowSchema *schema, const struct ArrowArray *array, int64_t i) {
    size_t width = strpbrk(schema->format, "ULZ") ? 8 : 4;
    int64_t start = whole(array->buffers[1], width, true, i), end = whole(array->buffers[1], width, true, i + 1);
    const uint8_t *heap = array->n_buffers > 2 ? array->buffers[2] : NULL;
    if (schema->format[0] == '+')
        sum_elements(sum, schema, array, start, end - start);
    else
        sum_value(sum, schema, heap ? heap + start : (const uint8_t *)"", (size_t)(end - start));
}

static int64_t number_of(const struct ArrowSchema *schema, const struct ArrowArray *array, int64_t i) {
    static const char formats[] = "cCsSiIlL";
    size_t place = (size_t)(strchr(formats, schema->format[0]) - formats);
    return whole(array->buffers[1], (size_t)1 << place / 2, place % 2 == 0, i);
}

static void sum_nested(struct sum *sum, const struct ArrowSchema *schema, const struct ArrowArray *array, int64_t i) {
    size_t width = schema->format[2] == 'L' ? 8 : 4;
    int64_t size;
    switch (schema->format[1]) {
    case 'l':
    case 'L':
    case 'm': sum_between(sum, schema, array, i); return;
    case 'v':
        size = whole(array->buffers[2], width, true, i);
        sum_elements(sum, schema, array, size ? whole(array->buffers[1], width, true, i) : 0, size);
        return;
    case 'w':
        size = strtol(schema->format + 3, NULL, 10);
        sum_elements(sum, schema, array, i * size, size);
        return;
    default:
        for (int64_t c = 0; c < schema->n_children; c++)
            sum_row(sum, schema->children[c], array->children[c], i);
    }
}

static void sum_row(struct sum *sum, const struct ArrowSchema *schema, const struct ArrowArray *array, int64_t row) {
    int64_t i = array->offset + row, width = width_of_format(schema->format);
    if (is_of_nulls(schema->format) || (array->buffers[0] && !flag(array->buffers[0], i))) {
        sum_up(sum, 0x6e756c6c);
        return;
    }
    if (schema->dictionary) {
        sum_row(sum, schema->dictionary, array->dictionary, number_of(schema, array, i));
        return;
    }
    if (width >= 0) {
        sum_bytes(sum, width ? (const uint8_t *)array->buffers[1] + i * width : (const uint8_t *)"", (size_t)width);
        return;
    }
    switch (schema->format[0]) {
    case 'b': sum_up(sum, flag(array->buffers[1], i)); return;
    case 'u':
    case 'U':
    case 'z':
    case 'Z': sum_between(sum, schema, array, i); return;
    case 'v': sum_view(sum, schema, array, i); return;
    case '+': sum_nested(sum, schema, array, i); return;
    default: sum_up(sum, (uint64_t)number_of(schema, array, i));
    }
}

/* The formats of what is carried, extensions, and what flags say of codes and keys. */
static void sum_word(struct sum *sum, const struct ArrowSchema *schema) {
    int32_t name_size, size;
    const char *name = extension_of(schema, &name_size), *metadata = value_of_key(schema, "ARROW:extension:metadata", &size);
    if (is_opaque(schema))
        sum_bytes(sum, (const uint8_t *)schema->format, strlen(schema->format));
    if (is_map(schema->format))
        sum_up(sum, schema->flags & ARROW_FLAG_MAP_KEYS_SORTED ? 2 : 1);
    if (schema->dictionary)
        sum_up(sum, schema->flags & ARROW_FLAG_DICTIONARY_ORDERED ? 2 : 1);
    if (name)
        sum_bytes(sum, (const uint8_t *)name, (size_t)name_size);
    if (name && metadata)
        sum_bytes(sum, (const uint8_t *)metadata, (size_t)size);
}

/* Whether all rows are null, whichever the schema says. */
static bool has_nulls_alone(const struct ArrowSchema *schema) {
    return schema->dictionary ? has_nulls_alone(schema->dictionary) : is_of_nulls(schema->format);
}

/* The names, and which of the arrays may have nulls. The values of a dictionary have no name, and may where their codes may. */
static void sum_schema(struct sum *sum, const struct ArrowSchema *schema, bool nullable, bool named) {
    const char *name = schema->name && named ? schema->name : "";
    nullable = named ? schema->flags & ARROW_FLAG_NULLABLE : nullable;
    nullable = nullable || has_nulls_alone(schema);
    sum_word(sum, schema);
    sum_bytes(sum, (const uint8_t *)name, strlen(name));
    sum_up(sum, nullable);
    for (int64_t c = 0; c < schema->n_children; c++)
        sum_schema(sum, schema->children[c], true, true);
    if (schema->dictionary)
        sum_schema(sum, schema->dictionary, nullable, false);
}

static inline struct sum sum_of(const struct ArrowSchema *schema, const struct ArrowArray *array) {
    struct sum sum = {0, true};
    sum_schema(&sum, schema, true, true);
    for (int64_t i = 0; i < array->length; i++)
        sum_row(&sum, schema, array, i);
    return sum;
}

#endif
