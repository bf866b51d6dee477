/* How the arrays that a run wrote lay in Arrow: their formats, by those of its columns. The columns and the steps have passed, so nothing
 * here tests them, and nothing here looks at a row. */
#include "inside.h"

#include <stdlib.h>

/* The format of an array, and those of its parts: of the elements of lists, or of the columns of records under their names. A dictionary
 * has those of its values; numbers and truth values have none. */
struct shape {
    uint8_t format;
    size_t count;
    const struct shape **parts;
    struct codrask_bytes *names; /* of records alone, one for each part */
};

/* The arrays of a run, in order, as far as they are known; and all blocks that are taken. */
struct arrays {
    const struct shape **shapes;
    size_t count;
    struct block *blocks;
    bool no_memory;
};

/* ---- memory ---- */

/* A block of zeroes; it has a byte at least. */
static void *block_of(struct arrays *arrays, size_t count, size_t width) {
    size_t size = codrask_add(codrask_multiply(count, width), sizeof(struct block) + 1);
    struct block *block = size < PTRDIFF_MAX ? calloc(1, size) : NULL;
    if (!block) {
        arrays->no_memory = true;
        return NULL;
    }
    block->next = arrays->blocks;
    arrays->blocks = block;
    return block + 1;
}

static void free_blocks(struct block *block) {
    while (block) {
        struct block *next = block->next;
        free(block);
        block = next;
    }
}

/* A shape with room for so many parts, and for their names; or none. */
static struct shape *new_shape(struct arrays *arrays, uint8_t format, size_t count) {
    struct shape *shape = block_of(arrays, 1, sizeof *shape);
    const struct shape **parts = block_of(arrays, count, sizeof *parts);
    struct codrask_bytes *names = block_of(arrays, count, sizeof *names);
    if (!shape || !parts || !names)
        return NULL;
    *shape = (struct shape){format, count, parts, names};
    return shape;
}

/* ---- columns ---- */

static bool has_validity(const struct codrask_node *node) {
    return node->validity == CODRASK_BY_ARRAY;
}

/* How many parts a node has, without its validity. */
static size_t parts_of(const struct codrask_node *node) {
    switch (node->kind) {
    case CODRASK_DICTIONARY: return 2;
    case CODRASK_FIXED_SIZE_LIST: return 1;
    case CODRASK_LIST_VIEW: return 3;
    case CODRASK_STRUCT: return node->buffer_count;
    default: return 0;
    }
}

/* The shape of a node, whose parts have the last ones before `end`, the first part the last of them. */
static const struct shape *shape_of(struct arrays *arrays, const struct codrask_node *node, uint8_t format, const struct shape **end) {
    bool records = node->kind == CODRASK_STRUCT, lists = node->kind == CODRASK_LIST_VIEW || node->kind == CODRASK_FIXED_SIZE_LIST;
    if (node->kind == CODRASK_DICTIONARY)
        return *(end - 2);
    if (node->kind < CODRASK_UTF8_VIEW)
        return NULL;
    struct shape *shape = new_shape(arrays, format, records ? node->buffer_count : lists);
    for (size_t i = 0; shape && i < shape->count; i++) {
        shape->parts[i] = *(end - 1 - i);
        if (records)
            shape->names[i] = node->buffers[i];
    }
    return shape;
}

/* The shape of a column: its nodes from the last one on, each after its parts. */
static const struct shape *shape_of_column(struct arrays *arrays, const struct codrask_column *column, const uint8_t *formats) {
    const struct shape **waiting = block_of(arrays, column->count, sizeof *waiting);
    size_t count = 0;
    for (size_t i = column->count; waiting && i-- > 0;) {
        const struct codrask_node *node = &column->nodes[i];
        count -= has_validity(node);
        const struct shape *shape = shape_of(arrays, node, formats ? formats[i] : CODRASK_NO_FORMAT, waiting + count);
        count -= parts_of(node);
        waiting[count++] = shape;
    }
    return waiting ? waiting[0] : NULL;
}

/* ---- steps ---- */

/* The place of the first part of a name; where no part has it, their number. */
static size_t place_of(const struct shape *shape, const uint8_t *name, size_t size) {
    size_t i = 0;
    while (i < shape->count && (shape->names[i].count != size || (size && memcmp(shape->names[i].bytes, name, size))))
        i++;
    return i;
}

static void copy_part(struct shape *to, size_t place, const struct shape *from, size_t i) {
    to->parts[place] = from->parts[i];
    to->names[place] = from->names[i];
}

static const struct shape *projected(struct arrays *arrays, const struct shape *records, const struct codrask_step *step) {
    struct shape *shape = new_shape(arrays, 0, step->name_count);
    for (size_t i = 0; shape && i < step->name_count; i++)
        copy_part(shape, i, records, place_of(records, step->names[i].bytes, step->names[i].count));
    return shape;
}

static const struct shape *with_column(struct arrays *arrays, const struct shape *records, const struct codrask_step *step) {
    struct shape *shape = new_shape(arrays, 0, records->count + 1);
    for (size_t i = 0; shape && i < records->count; i++)
        copy_part(shape, i, records, i);
    if (shape) {
        shape->parts[records->count] = arrays->shapes[step->other];
        shape->names[records->count] = (struct codrask_bytes){step->name, step->name_size};
    }
    return shape;
}

static const struct shape *without_column(struct arrays *arrays, const struct shape *records, const struct codrask_step *step) {
    size_t place = place_of(records, step->name, step->name_size);
    struct shape *shape = new_shape(arrays, 0, records->count - 1);
    for (size_t i = 0; shape && i < shape->count; i++)
        copy_part(shape, i, records, i < place ? i : i + 1);
    return shape;
}

/* Lists that are laid out anew: their elements alone keep what they have. */
static const struct shape *rebuilt(struct arrays *arrays, const struct shape *lists) {
    struct shape *shape = new_shape(arrays, 0, 1);
    if (shape)
        copy_part(shape, 0, lists, 0);
    return shape;
}

/* The shape of what a step appends. */
static const struct shape *shape_after(struct arrays *arrays, const struct codrask_step *step) {
    const struct shape *shape = arrays->shapes[step->kind == CODRASK_CONCAT ? step->arrays[0] : step->array];
    switch (step->kind) {
    case CODRASK_REBUILD: return rebuilt(arrays, shape);
    case CODRASK_PROJECT: return projected(arrays, shape, step);
    case CODRASK_WITH_COLUMN: return with_column(arrays, shape, step);
    case CODRASK_REMOVE_COLUMN: return without_column(arrays, shape, step);
    case CODRASK_FIELD: return shape->parts[place_of(shape, step->name, step->name_size)];
    default: return shape;
    }
}

/* ---- what was written ---- */

/* The shape of a part of a node, whose own is this one. */
static const struct shape *shape_of_part(const struct codrask_node *node, const struct shape *shape, size_t i) {
    if (node->kind == CODRASK_DICTIONARY)
        return i ? shape : NULL;
    return shape && i < shape->count ? shape->parts[i] : NULL;
}

/* Writes the formats of a column: its nodes from the first one on, each before its parts. */
static void write_formats(struct arrays *arrays, const struct shape *shape, const struct codrask_column *column, uint8_t *formats) {
    const struct shape **waiting = block_of(arrays, column->count, sizeof *waiting);
    size_t count = 0;
    if (waiting)
        waiting[count++] = shape;
    for (size_t i = 0; waiting && i < column->count; i++) {
        const struct codrask_node *node = &column->nodes[i];
        shape = waiting[--count];
        formats[i] = shape && node->kind != CODRASK_DICTIONARY ? shape->format : CODRASK_NO_FORMAT;
        for (size_t part = parts_of(node); part-- > 0;)
            waiting[count++] = shape_of_part(node, shape, part);
        if (has_validity(node))
            waiting[count++] = NULL;
    }
}

uint32_t codrask_run_formats(const struct codrask_column *columns, const uint8_t *const *formats, size_t column_count,
                             const struct codrask_step *steps, size_t step_count, const size_t *wanted,
                             const struct codrask_columns *made, uint8_t *const *made_formats) {
    struct arrays arrays = {.blocks = NULL};
    arrays.shapes = block_of(&arrays, codrask_add(column_count, step_count), sizeof *arrays.shapes);
    for (size_t i = 0; i < column_count && !arrays.no_memory; i++)
        arrays.shapes[arrays.count++] = shape_of_column(&arrays, &columns[i], formats[i]);
    for (size_t i = 0; i < step_count && !arrays.no_memory; i++)
        arrays.shapes[arrays.count++] = shape_after(&arrays, &steps[i]);
    for (size_t i = 0; i < made->count && !arrays.no_memory; i++)
        write_formats(&arrays, arrays.shapes[wanted[i]], &made->columns[i], made_formats[i]);
    free_blocks(arrays.blocks);
    return arrays.no_memory ? CODRASK_MEMORY : 0;
}
