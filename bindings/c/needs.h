/* How many bytes of each buffer of an Arrow structure the rows need that are read, by Arrow's rules, and what is told where a buffer has
 * fewer. It shares no code with what is tested. For the tests alone. */
#ifndef NEEDS_H
#define NEEDS_H

#include "rows_of_arrow.h"

enum { MOST_NEEDS = 8192 };

/* What the rows that are read need of a buffer. */
struct need {
    struct ArrowArray *array;
    int64_t place; /* which buffer of the array it is */
    size_t bytes;
    size_t node;       /* of the array */
    size_t width;      /* of a heap of values between offsets, that of the offsets: where it is too short is told by row; else 0 */
    size_t from, rows; /* of the array, counted from the buffers' first row */
    bool nullable;
};

/* The needs of all buffers, in the order of lengths. */
struct needs {
    struct need each[MOST_NEEDS];
    size_t count, node;
};

static void need_array(struct needs *n, const struct ArrowSchema *schema, struct ArrowArray *array, size_t from, size_t rows,
                       bool nullable);

static size_t least(size_t one, size_t other) {
    return one < other ? one : other;
}

static bool is_list(const char *format) {
    return !strncmp(format, "+l", 2) || !strncmp(format, "+L", 2) || is_map(format);
}

/* How many bytes so many values have that an array by itself holds. */
static size_t bytes_of_flat(const char *format, size_t rows) {
    static const char integers[] = "cCsSiIlL";
    const char *integer = strchr(integers, format[0]);
    if (!strcmp(format, "b"))
        return (rows + 7) / 8;
    return integer && !format[1] ? rows << (integer - integers) / 2 : rows * (size_t)width_of_format(format);
}

/* Offset `i` of an array, where it has any. */
static int64_t offset_of(const struct ArrowArray *array, size_t width, size_t i) {
    return array->buffers[1] ? whole(array->buffers[1], width, true, (int64_t)i) : 0;
}

/* Elements of lists by offsets: from where the first list begins to where the last one ends. */
static void need_lists(struct needs *n, const struct ArrowSchema *schema, struct ArrowArray *array, size_t from, size_t rows) {
    size_t width = schema->format[1] == 'L' ? 8 : 4, first = 0, end = 0;
    if (rows) {
        first = (size_t)offset_of(array, width, from);
        end = (size_t)offset_of(array, width, from + rows);
    }
    need_array(n, schema->children[0], array->children[0], first, end - first, schema->children[0]->flags & ARROW_FLAG_NULLABLE);
    n->node += 2;
}

static void need_children(struct needs *n, const struct ArrowSchema *schema, struct ArrowArray *array, size_t from, size_t rows) {
    size_t size = schema->format[1] == 'w' ? (size_t)strtol(schema->format + 3, NULL, 10) : 1;
    for (int64_t c = 0; c < schema->n_children; c++) {
        bool nullable = schema->children[c]->flags & ARROW_FLAG_NULLABLE;
        if (schema->format[1] == 'v')
            need_array(n, schema->children[c], array->children[c], 0, SIZE_MAX, nullable);
        else
            need_array(n, schema->children[c], array->children[c], from * size, rows * size, nullable);
    }
    n->node += schema->format[1] == 'v' ? 2 : 0;
}

/* What the rows from `from` up to `end` need of the buffers after the first one. */
static void need_buffers(struct need *need, const struct ArrowSchema *schema, const struct ArrowArray *array, size_t from, size_t end) {
    const char *format = schema->format;
    bool some = end > from, values = strchr("uUzZ", format[0]), lists = is_list(format);
    size_t width = strpbrk(format, "ULZ") ? 8 : 4;
    if (values || lists)
        need[1].bytes = some ? (end + 1) * width : 0;
    if (values) {
        need[2].width = width;
        need[2].bytes = some ? (size_t)offset_of(array, width, end) : 0;
    }
    if (!strncmp(format, "+v", 2))
        need[1].bytes = need[2].bytes = some ? end * width : 0;
    if (format[0] == 'v') {
        need[1].bytes = some ? 16 * end : 0;
        for (int64_t i = 2; i < array->n_buffers - 1; i++)
            need[i].bytes = (size_t)whole(array->buffers[array->n_buffers - 1], 8, true, i - 2);
        need[array->n_buffers - 1].bytes = 8 * (size_t)(array->n_buffers - 3);
    }
    if (!strchr("+vuUzZn", format[0]))
        need[1].bytes = some ? bytes_of_flat(format, end) : 0;
}

/* The needs of an array and all below it, of which so many rows are read. */
static void need_array(struct needs *n, const struct ArrowSchema *schema, struct ArrowArray *array, size_t from, size_t rows,
                       bool nullable) {
    struct need *need = &n->each[n->count];
    from = least(from, (size_t)array->length);
    rows = least(rows, (size_t)array->length - from);
    from += (size_t)array->offset;
    if (n->count + (size_t)array->n_buffers > MOST_NEEDS)
        abort();
    size_t node = n->node + !!schema->dictionary + is_under_record(schema);
    for (int64_t i = 0; i < array->n_buffers; i++)
        n->each[n->count++] = (struct need){array, i, 0, node, 0, from, rows, nullable};
    if (array->n_buffers && array->buffers[0] && rows)
        need[0].bytes = (from + rows + 7) / 8;
    n->node += own_nodes(schema, array, nullable);
    need_buffers(need, schema, array, from, from + rows);
    if (is_list(schema->format))
        need_lists(n, schema, array, from, rows);
    else
        need_children(n, schema, array, from, rows);
    if (schema->dictionary)
        need_array(n, schema->dictionary, array->dictionary, 0, SIZE_MAX, nullable);
}

static void needs_of(struct needs *n, const struct ArrowSchema *schema, struct ArrowArray *array) {
    n->count = n->node = 0;
    need_array(n, schema, array, 0, SIZE_MAX, schema->flags & ARROW_FLAG_NULLABLE);
}

/* The first row that passes the end of a heap, where the heap has so many bytes; none where only null rows do. */
static struct codrask_fault fault_of_heap(const struct need *need, size_t bytes) {
    const uint8_t *bits = need->array->null_count ? need->array->buffers[0] : NULL;
    for (size_t row = 0; row < need->rows; row++) {
        size_t i = need->from + row;
        if ((size_t)offset_of(need->array, need->width, i + 1) <= bytes || (need->nullable && bits && !flag(bits, (int64_t)i)))
            continue;
        bool starts = (size_t)offset_of(need->array, need->width, i) < bytes;
        return (struct codrask_fault){starts ? CODRASK_BAD_END : CODRASK_BAD_START, need->node, row};
    }
    return (struct codrask_fault){0, 0, 0};
}

/* What is told where a buffer has so many bytes, and all others as many as they need. */
static inline struct codrask_fault fault_of_length(const struct need *need, size_t bytes) {
    if (bytes >= need->bytes)
        return (struct codrask_fault){0, 0, 0};
    if (need->width)
        return fault_of_heap(need, bytes);
    return (struct codrask_fault){CODRASK_SHORT_BUFFER, need->node, (size_t)need->place};
}

#endif
