/* Arrow's C Data Interface as tables of nodes: the nodes, from the structs alone and the first and last of some offsets. No row is
 * looked at here, and no memory is taken for rows. Nothing here decides whether a column is one: codrask_check does. */
#include "inside.h"

#include <stdlib.h>

_Alignas(max_align_t) const uint8_t codrask_nothing[64];

/* The rows of an array from `from` on, at most `length`, and whether they may be null. */
struct rows {
    const struct ArrowSchema *schema;
    const struct ArrowArray *array;
    size_t from, length;
    int depth;
    bool nullable;
    struct enclosing in;
    const size_t *lengths; /* none, or those of the array's buffers */
};

static const struct enclosing no_enclosing = {0, 0};
static const struct ArrowSchema no_schema;

static uint32_t emit(struct reader *r, struct rows rows);

/* ---- nodes ---- */

uint32_t codrask_refuse(struct reader *reader, uint32_t number, size_t node, size_t place) {
    reader->fault = (struct codrask_fault){number, node, place};
    return number;
}

/* A fault of the array whose node is the next one. */
static uint32_t refuse_next(struct reader *r, uint32_t number) {
    return codrask_refuse(r, number, r->count, 0);
}

static uint32_t grow(struct reader *r) {
    size_t room = r->room ? 2 * r->room : 16;
    struct codrask_node *nodes = realloc(r->nodes, room * sizeof *nodes);
    if (nodes)
        r->nodes = nodes;
    struct task *tasks = nodes ? realloc(r->tasks, room * sizeof *tasks) : NULL;
    if (!tasks)
        return codrask_refuse(r, CODRASK_MEMORY, 0, 0);
    r->tasks = tasks;
    r->room = room;
    return 0;
}

/* A new node at the end of the table; its slices are empty, and nothing is to be made of it. Nodes may move. */
static uint32_t new_node(struct reader *r, uint32_t kind, uint32_t validity, size_t length) {
    if (r->count == MOST_NODES)
        return codrask_refuse(r, CODRASK_TOO_MANY_NODES, 0, 0);
    uint32_t error = r->count == r->room ? grow(r) : 0;
    if (error)
        return error;
    struct codrask_node *node = &r->nodes[r->count];
    memset(node, 0, sizeof *node);
    node->kind = kind;
    node->validity = validity;
    node->length = length;
    node->bytes = codrask_nothing;
    node->views = (const void *)codrask_nothing;
    node->buffers = (const void *)codrask_nothing;
    r->tasks[r->count++] = (struct task){.work = NO_WORK};
    return 0;
}

/* ---- buffers ---- */

static const uint8_t *buffer(const struct ArrowArray *array, int64_t place) {
    return array->buffers[place];
}

/* A slice of `count` times `width` bytes from row `from` on; an empty one where there is no buffer. False past all memory. */
static bool slice(const uint8_t *bytes, size_t from, size_t count, size_t width, const uint8_t **start, size_t *size) {
    size_t before = codrask_multiply(from, width);
    *size = codrask_multiply(count, width);
    if (codrask_add(before, *size) > (size_t)PTRDIFF_MAX)
        return false;
    *start = bytes ? bytes + before : codrask_nothing;
    *size = bytes ? *size : 0;
    return true;
}

/* The truth values from bit `from` on: the bytes that have them, and the bit of the first byte at which they begin. */
static void bits(struct codrask_node *node, const uint8_t *bytes, size_t from, size_t length) {
    if (!bytes || !length)
        return;
    node->bytes = bytes + from / 8;
    node->offset = from % 8;
    node->byte_count = (from % 8 + length - 1) / 8 + 1;
}

/* Refuses a buffer whose length is told, and is less than it needs. */
static uint32_t test_length(struct reader *r, struct rows rows, size_t node, int64_t place, size_t needed) {
    return rows.lengths && needed > rows.lengths[place] ? codrask_refuse(r, CODRASK_SHORT_BUFFER, node, (size_t)place) : 0;
}

/* How many bytes a buffer needs for some rows: of their bits, or of items so wide, and of `more` items after the last row; 0 of no row. */
static size_t needed_for(struct rows rows, size_t more, size_t width) {
    if (!rows.length)
        return 0;
    return width ? codrask_multiply(rows.from + rows.length + more, width) : (rows.from + rows.length - 1) / 8 + 1;
}

/* ---- what each array has ---- */

/* Whether no child is missing. */
static bool has_children(struct rows rows) {
    for (int64_t i = 0; i < rows.schema->n_children; i++)
        if (!rows.schema->children[i] || !rows.array->children[i])
            return false;
    return true;
}

/* Whether the counts of an array and its schema are those of its format, and what is counted is there. */
static bool has_form(struct rows rows, const struct format *format) {
    const struct ArrowSchema *schema = rows.schema;
    const struct ArrowArray *array = rows.array;
    bool views = format->layout == VIEWS;
    if (schema->n_children != array->n_children || schema->n_children < 0
        || (format->children >= 0 && schema->n_children != format->children))
        return false;
    if (array->n_buffers < format->buffers || (!views && array->n_buffers != format->buffers) || (format->buffers && !array->buffers))
        return false;
    if (array->length < 0 || array->offset < 0 || array->null_count < -1 || array->length > INT64_MAX - array->offset)
        return false;
    if (!schema->dictionary != !array->dictionary || (schema->dictionary && !format->may_be_codes))
        return false;
    return !schema->n_children || (schema->children && array->children);
}

/* Whether the entries of maps are records of two columns. Where they are released, that is told of them. */
static bool has_entries(struct rows rows, const struct format *format) {
    const struct ArrowSchema *entries = format->layout == MAPS ? rows.schema->children[0] : NULL;
    return !entries || !entries->release || (entries->format && !strcmp(entries->format, "+s") && entries->n_children == 2);
}

/* Tests the metadata of a schema, which may tell of an extension. */
static uint32_t test_metadata(struct reader *r, const struct ArrowSchema *schema) {
    struct carried carried;
    int32_t keys = codrask_count_keys(schema->metadata);
    if (keys < 0)
        return refuse_next(r, CODRASK_BAD_ARROW);
    if ((size_t)keys > MOST_KEYS - r->keys)
        return refuse_next(r, CODRASK_TOO_MANY_BYTES);
    r->keys += (size_t)keys;
    return codrask_read_extension(schema->metadata, &carried) ? 0 : refuse_next(r, CODRASK_BAD_ARROW);
}

/* Tests the structs of an array, and reads its format. */
static uint32_t test_structs(struct reader *r, struct rows rows, struct format *format) {
    if (!rows.schema->release || !rows.array->release)
        return refuse_next(r, CODRASK_RELEASED);
    if (!rows.schema->format || !codrask_format_of(rows.schema->format, format) || !has_form(rows, format))
        return refuse_next(r, CODRASK_BAD_ARROW);
    if (rows.depth > DEEPEST)
        return refuse_next(r, CODRASK_TOO_DEEP);
    if (rows.schema->n_children >= MOST_NODES)
        return codrask_refuse(r, CODRASK_TOO_MANY_NODES, 0, 0);
    if (!has_children(rows) || !has_entries(rows, format))
        return refuse_next(r, CODRASK_BAD_ARROW);
    return test_metadata(r, rows.schema);
}

/* The rows that the array has of these, counted from its buffers' first row. */
static struct rows rows_there(struct rows rows) {
    size_t all = (size_t)rows.array->length;
    if (rows.from > all)
        rows.from = all;
    if (rows.length > all - rows.from)
        rows.length = all - rows.from;
    rows.from += (size_t)rows.array->offset;
    return rows;
}

/* A new node of an array, and one of its validity where rows may be null. What the bitmap tells is tested with the rows. */
static uint32_t open_node(struct reader *r, struct rows rows, uint32_t kind, size_t *place) {
    const uint8_t *bitmap = rows.array->n_buffers ? buffer(rows.array, 0) : NULL;
    bool told = rows.nullable && bitmap && rows.array->null_count;
    uint32_t error = new_node(r, kind, told ? CODRASK_BY_ARRAY : rows.nullable ? CODRASK_ALL_VALID : CODRASK_NON_NULLABLE, rows.length);
    if (error)
        return error;
    *place = r->count - 1;
    r->tasks[*place] = (struct task){.schema = rows.schema, .array = rows.array, .nullable = rows.nullable, .in = rows.in};
    if (bitmap) {
        r->tasks[*place].bitmap = bitmap + rows.from / 8;
        r->tasks[*place].bit = rows.from % 8;
        if ((error = test_length(r, rows, *place, 0, needed_for(rows, 0, 0))))
            return error;
    }
    if (!told)
        return 0;
    if ((error = new_node(r, CODRASK_BOOL, CODRASK_NON_NULLABLE, rows.length)))
        return error;
    bits(&r->nodes[r->count - 1], bitmap, rows.from, rows.length);
    return 0;
}

/* ---- names ---- */

/* Whether a name leaves room for others. */
static bool fits(struct reader *r, const char *name) {
    if (!name)
        return true;
    const char *end = memchr(name, 0, MOST_NAME_BYTES - r->name_bytes + 1);
    r->name_bytes += end ? (size_t)(end - name) : 0;
    return end;
}

/* The names of the children are to be copied: one for each column, or that of the elements, where they have one. */
static uint32_t ask_names(struct reader *r, struct rows rows, size_t place) {
    size_t count = (size_t)rows.schema->n_children;
    for (size_t i = 0; i < count; i++)
        if (!fits(r, rows.schema->children[i]->name))
            return codrask_refuse(r, CODRASK_TOO_MANY_BYTES, place, 0);
    const char *first = count ? rows.schema->children[0]->name : NULL;
    if (r->nodes[place].kind != CODRASK_STRUCT && !(first && *first))
        return 0;
    r->nodes[place].buffer_count = count;
    if (r->tasks[place].work == NO_WORK)
        r->tasks[place].work = MAKE_NAMES;
    return 0;
}

/* ---- what is carried ---- */

/* The records of a node have one column, under the name for what it is. */
static uint32_t ask_word(struct reader *r, struct rows rows, size_t place) {
    size_t size = codrask_write_name(rows.schema, NULL);
    if (size > MOST_NAME_BYTES - r->name_bytes)
        return codrask_refuse(r, CODRASK_TOO_MANY_BYTES, place, 0);
    r->name_bytes += size;
    r->nodes[place].buffer_count = 1;
    r->tasks[place].schema = rows.schema;
    r->tasks[place].work = MAKE_WORD;
    return 0;
}

/* A new node of records, with the nulls of an array, and then one of the column that they carry. */
static uint32_t open_carried(struct reader *r, struct rows rows, const struct format *format, size_t *place) {
    uint32_t error = open_node(r, rows, CODRASK_STRUCT, place);
    if (error || (error = ask_word(r, rows, *place)))
        return error;
    if (format->layout == NULLS)
        r->nodes[*place].validity = CODRASK_ALL_INVALID;
    if ((error = new_node(r, format->kind, CODRASK_NON_NULLABLE, rows.length)))
        return error;
    *place = r->count - 1;
    r->nodes[*place].size = format->size;
    r->tasks[*place].schema = rows.schema;
    return 0;
}

/* Values that the layer has no type for: numbers of their width, or lists of so many bytes. */
static uint32_t emit_carried(struct reader *r, struct rows rows, const struct format *format) {
    size_t place, record = r->count, needed = format->width ? needed_for(rows, 0, format->width) : 0;
    uint32_t error = open_carried(r, rows, format, &place);
    if (!error && format->layout != NULLS)
        error = test_length(r, rows, record, 1, needed);
    if (!error && format->kind == CODRASK_FIXED_SIZE_LIST)
        error = new_node(r, CODRASK_U8, CODRASK_NON_NULLABLE, codrask_multiply(rows.length, format->width));
    if (error || format->layout == NULLS)
        return error;
    struct codrask_node *node = &r->nodes[r->count - 1];
    const uint8_t *bytes = buffer(rows.array, 1);
    bool is_slice = slice(bytes, rows.from, rows.length, format->width, &node->bytes, &node->byte_count);
    return is_slice ? 0 : codrask_refuse(r, CODRASK_BAD_ARROW, record, 0);
}

/* Records without nulls over an array that has a type of the layer: they have its extension, or say that its codes are ordered. */
static uint32_t emit_over(struct reader *r, struct rows rows) {
    uint32_t error = new_node(r, CODRASK_STRUCT, CODRASK_NON_NULLABLE, rows.length);
    return error ? error : ask_word(r, rows, r->count - 1);
}

/* ---- layouts ---- */

/* What children lie in whose parent has the node at `place`: the parent where it has a bitmap, else what the parent lies in. */
static struct enclosing enclosing(const struct reader *r, struct rows rows, size_t place, size_t each) {
    if (r->tasks[place].bitmap)
        return (struct enclosing){place + 1, each};
    return (struct enclosing){rows.in.node, codrask_multiply(rows.in.each, each)};
}

/* The rows of a child, counted from its first one. */
static uint32_t emit_child(struct reader *r, struct rows rows, size_t i, struct enclosing in, size_t from, size_t length) {
    const struct ArrowSchema *schema = rows.schema->children[i];
    bool nullable = schema->flags & ARROW_FLAG_NULLABLE;
    if (r->lengths && r->choice && !rows.depth)
        r->next_length = r->choice->lengths[r->choice->columns[i]];
    return emit(r, (struct rows){schema, rows.array->children[i], from, length, rows.depth + 1, nullable, in, NULL});
}

static uint32_t emit_flat(struct reader *r, struct rows rows, const struct format *format) {
    size_t place;
    uint32_t error = open_node(r, rows, format->kind, &place);
    if (error || (error = test_length(r, rows, place, 1, needed_for(rows, 0, format->width))))
        return error;
    struct codrask_node *node = &r->nodes[place];
    const uint8_t *bytes = buffer(rows.array, 1);
    if (!format->width)
        bits(node, bytes, rows.from, rows.length);
    else if (!slice(bytes, rows.from, rows.length, format->width, &node->bytes, &node->byte_count))
        return codrask_refuse(r, CODRASK_BAD_ARROW, place, 0);
    return 0;
}

/* The lengths of views, of the sizes of their buffers, and of these buffers. */
static uint32_t test_views(struct reader *r, struct rows rows, size_t node) {
    int64_t sizes = rows.array->n_buffers - 1;
    uint32_t error = test_length(r, rows, node, 1, needed_for(rows, 0, 16));
    if (error || (error = test_length(r, rows, node, sizes, codrask_multiply((size_t)sizes - 2, 8))))
        return error;
    for (int64_t i = 2; rows.lengths && i < sizes; i++) {
        int64_t size = codrask_offset_at(buffer(rows.array, sizes), 8, (size_t)i - 2);
        if (size > 0 && (error = test_length(r, rows, node, i, (size_t)size)))
            return error;
    }
    return 0;
}

static uint32_t emit_views(struct reader *r, struct rows rows, const struct format *format) {
    size_t place, size;
    const uint8_t *start;
    uint32_t error = open_node(r, rows, format->kind, &place);
    if (error || (error = test_views(r, rows, place)))
        return error;
    if (!slice(buffer(rows.array, 1), rows.from, rows.length, 16, &start, &size))
        return codrask_refuse(r, CODRASK_BAD_ARROW, place, 0);
    if (rows.array->n_buffers - 3 > (int64_t)(MOST_VIEW_BUFFERS - r->view_buffers))
        return codrask_refuse(r, CODRASK_TOO_MANY_BUFFERS, place, 0);
    struct codrask_node *node = &r->nodes[place];
    node->views = (const void *)start;
    node->view_count = size / 16;
    node->buffer_count = (size_t)rows.array->n_buffers - 3;
    r->view_buffers += node->buffer_count;
    r->tasks[place].work = MAKE_HEAPS;
    r->tasks[place].form = CODRASK_SMALL_VIEWS;
    return 0;
}

/* The offsets of some rows: one more than there are rows, and none where there is no row or no buffer. */
static bool offsets_of(struct rows rows, size_t width, struct task *task) {
    size_t size;
    task->width = width;
    if (!rows.length || !buffer(rows.array, 1))
        return true;
    if (!slice(buffer(rows.array, 1), rows.from, rows.length + 1, width, &task->offsets, &size))
        return false;
    task->base = codrask_offset_at(task->offsets, width, 0);
    task->end = codrask_offset_at(task->offsets, width, rows.length);
    return true;
}

/* Where the heap of values ends: where its length tells it. Else the last offset of the array itself, of which not all rows may be read,
 * is believed. False past all memory. */
static bool heap_end_of(struct rows rows, size_t width, int64_t *end) {
    size_t all = (size_t)(rows.array->offset + rows.array->length), size;
    const uint8_t *offsets;
    if (rows.lengths) {
        *end = rows.lengths[2] < INT64_MAX ? (int64_t)rows.lengths[2] : INT64_MAX;
        return true;
    }
    if (!slice(buffer(rows.array, 1), 0, all + 1, width, &offsets, &size))
        return false;
    *end = codrask_offset_at(offsets, width, all);
    return true;
}

static uint8_t form_of_offsets(const struct format *format) {
    return format->layout == MAPS ? CODRASK_NO_FORMAT : format->width == 4 ? CODRASK_SMALL_OFFSETS : CODRASK_LARGE_OFFSETS;
}

/* Texts or byte lists by offsets. Their bytes begin where the first one does; where that tells no place, with the heap. */
static uint32_t emit_values(struct reader *r, struct rows rows, const struct format *format) {
    size_t place;
    int64_t heap_end;
    uint32_t error = open_node(r, rows, format->kind, &place);
    if (error || (error = test_length(r, rows, place, 1, needed_for(rows, 1, format->width))))
        return error;
    struct task *task = &r->tasks[place];
    task->form = form_of_offsets(format);
    if (!offsets_of(rows, format->width, task))
        return codrask_refuse(r, CODRASK_BAD_ARROW, place, 0);
    if (!task->offsets)
        return 0;
    if (!heap_end_of(rows, format->width, &heap_end))
        return codrask_refuse(r, CODRASK_BAD_ARROW, place, 0);
    task->work = MAKE_VIEWS;
    task->heap_end = rows.lengths ? heap_end : INT64_MAX;
    task->heap = buffer(rows.array, 2);
    if (task->end > heap_end)
        task->end = heap_end;
    if (task->end < 0 || !task->heap)
        task->end = 0;
    if (task->base < 0 || task->base > task->end)
        task->base = 0;
    return 0;
}

/* The numbers of a buffer as a node of their own. */
static uint32_t emit_numbers(struct reader *r, const uint8_t *bytes, size_t from, size_t length, size_t width) {
    uint32_t error = new_node(r, width == 4 ? CODRASK_I32 : CODRASK_I64, CODRASK_NON_NULLABLE, length);
    if (error)
        return error;
    struct codrask_node *node = &r->nodes[r->count - 1];
    return slice(bytes, from, length, width, &node->bytes, &node->byte_count) ? 0 : codrask_refuse(r, CODRASK_BAD_ARROW, r->count - 1, 0);
}

/* A node of numbers that are still to be made. */
static uint32_t emit_task(struct reader *r, size_t length, struct task task, enum work work) {
    uint32_t error = new_node(r, CODRASK_I64, CODRASK_NON_NULLABLE, task.offsets ? length : 0);
    task.work = task.offsets ? work : NO_WORK;
    if (!error)
        r->tasks[r->count - 1] = task;
    return error;
}

/* Lists by offsets. Their elements begin where the first list does; where that tells no place, with the child. */
static uint32_t emit_lists(struct reader *r, struct rows rows, const struct format *format) {
    size_t place, first = r->count;
    struct task ends = {.work = NO_WORK};
    uint32_t error = format->layout == MAPS ? open_carried(r, rows, format, &place) : open_node(r, rows, format->kind, &place);
    if (!error && (error = ask_names(r, rows, place)))
        return codrask_refuse(r, error, first, 0);
    if (error || (error = test_length(r, rows, first, 1, needed_for(rows, 1, format->width))))
        return error;
    if (!offsets_of(rows, format->width, &ends))
        return codrask_refuse(r, CODRASK_BAD_ARROW, first, 0);
    r->tasks[place].form = form_of_offsets(format);
    bool within = 0 <= ends.base && ends.base <= ends.end && ends.end <= rows.array->children[0]->length;
    ends.base = within ? ends.base : 0;
    if ((error = emit_child(r, rows, 0, no_enclosing, (size_t)ends.base, within ? (size_t)(ends.end - ends.base) : SIZE_MAX)))
        return error;
    if (ends.base || !ends.offsets)
        error = emit_task(r, rows.length, ends, MAKE_OFFSETS);
    else
        error = emit_numbers(r, ends.offsets, 0, rows.length, ends.width);
    return error ? error : emit_task(r, rows.length, ends, MAKE_SIZES);
}

static uint32_t emit_list_views(struct reader *r, struct rows rows, const struct format *format) {
    size_t place, needed = needed_for(rows, 0, format->width);
    uint32_t error = open_node(r, rows, format->kind, &place);
    if (error || (error = ask_names(r, rows, place)) || (error = test_length(r, rows, place, 1, needed))
        || (error = test_length(r, rows, place, 2, needed)))
        return error;
    r->tasks[place].form = format->width == 4 ? CODRASK_SMALL_VIEWS : CODRASK_LARGE_VIEWS;
    if ((error = emit_child(r, rows, 0, no_enclosing, 0, SIZE_MAX)))
        return error;
    error = emit_numbers(r, buffer(rows.array, 1), rows.from, rows.length, format->width);
    return error ? error : emit_numbers(r, buffer(rows.array, 2), rows.from, rows.length, format->width);
}

static uint32_t emit_fixed(struct reader *r, struct rows rows, const struct format *format) {
    size_t place;
    uint32_t error = open_node(r, rows, format->kind, &place);
    if (error || (error = ask_names(r, rows, place)))
        return error;
    r->nodes[place].size = format->size;
    struct enclosing in = enclosing(r, rows, place, format->size);
    return emit_child(r, rows, 0, in, codrask_multiply(rows.from, format->size), codrask_multiply(rows.length, format->size));
}

static uint32_t emit_records(struct reader *r, struct rows rows, const struct format *format) {
    size_t place;
    uint32_t error = open_node(r, rows, format->kind, &place);
    if (error || (error = ask_names(r, rows, place)))
        return error;
    struct enclosing in = enclosing(r, rows, place, 1);
    for (size_t i = 0; i < (size_t)rows.schema->n_children; i++)
        if ((error = emit_child(r, rows, i, in, rows.from, rows.length)))
            return error;
    return 0;
}

/* Codes and values: both may be null where the field says so. The flags of the values' own schema say nothing, as Arrow has them. */
static uint32_t emit_dictionary(struct reader *r, struct rows rows, const struct format *format) {
    uint32_t error = new_node(r, CODRASK_DICTIONARY, CODRASK_NON_NULLABLE, rows.length);
    if (error || (error = emit_flat(r, rows, format)))
        return error;
    const struct ArrowSchema *values = rows.schema->dictionary;
    return emit(r, (struct rows){values, rows.array->dictionary, 0, SIZE_MAX, rows.depth + 1, rows.nullable, no_enclosing, NULL});
}

/* Of these rows those that the array has, with the lengths of its buffers; none where structs alone are tested. */
static struct rows rows_read(struct reader *r, struct rows rows) {
    rows = rows_there(rows);
    if (r->structs_alone)
        rows.from = rows.length = 0;
    rows.lengths = r->lengths ? r->lengths + r->next_length : NULL;
    r->next_length += (size_t)rows.array->n_buffers;
    return rows;
}

static uint32_t emit_array(struct reader *r, struct rows rows) {
    struct format format;
    uint32_t error = test_structs(r, rows, &format);
    if (error)
        return error;
    rows = rows_read(r, rows);
    if (format.layout < CARRIED && codrask_has_name(rows.schema) && (error = emit_over(r, rows)))
        return error;
    if (rows.schema->dictionary)
        return emit_dictionary(r, rows, &format);
    switch (format.layout) {
    case FLAT: return emit_flat(r, rows, &format);
    case VALUES: return emit_values(r, rows, &format);
    case VIEWS: return emit_views(r, rows, &format);
    case LISTS:
    case MAPS: return emit_lists(r, rows, &format);
    case LIST_VIEWS: return emit_list_views(r, rows, &format);
    case FIXED_LISTS: return emit_fixed(r, rows, &format);
    case CARRIED:
    case NULLS: return emit_carried(r, rows, &format);
    default: return emit_records(r, rows, &format);
    }
}

/* Remembers the schema of the array that a refusal is of: it is none where the table is too large, and where the schema is gone. */
static uint32_t refused_of(struct reader *r, uint32_t error, const struct ArrowSchema *schema) {
    bool of_array = error && error != CODRASK_MEMORY && error != CODRASK_TOO_MANY_NODES && error != CODRASK_TOO_MANY_BYTES;
    if (of_array && !r->refused)
        r->refused = schema->release ? schema : &no_schema;
    return error;
}

/* The nodes of an array and of all below it: of a refusal the innermost array is remembered. */
static uint32_t emit(struct reader *r, struct rows rows) {
    return refused_of(r, emit_array(r, rows), rows.schema);
}

/* ---- how many bytes ---- */

/* The first node at which all take more bytes than they may. */
static uint32_t spend_again(struct reader *r, struct budget *budget, size_t most) {
    budget->spent = 0;
    for (size_t i = 0; i < r->count; i++) {
        codrask_spend_task(budget, &r->nodes[i], &r->tasks[i]);
        if (budget->spent > most)
            return codrask_refuse(r, CODRASK_TOO_MANY_BYTES, i, 0);
    }
    return 0;
}

static uint32_t test_bytes(struct reader *r, const struct codrask_limits *limits) {
    struct budget budget = {.ranges = NULL};
    for (size_t i = 0; i < r->count; i++)
        codrask_spend_task(&budget, &r->nodes[i], &r->tasks[i]);
    bool no_memory = budget.no_memory;
    size_t most = codrask_most_bytes(&budget, limits);
    return no_memory ? codrask_refuse(r, CODRASK_MEMORY, 0, 0) : spend_again(r, &budget, most);
}

/* ---- the call ---- */

/* The nodes of all arrays; of the outermost records those of the columns that are chosen. */
static uint32_t emit_all(struct reader *r, const struct ArrowSchema *schema, const struct ArrowArray *array) {
    if (r->choice)
        schema = &r->choice->schema, array = &r->choice->array;
    bool nullable = schema->flags & ARROW_FLAG_NULLABLE;
    uint32_t error = emit(r, (struct rows){schema, array, 0, SIZE_MAX, 0, nullable, no_enclosing, NULL});
    return error || fits(r, schema->name) ? error : codrask_refuse(r, CODRASK_TOO_MANY_BYTES, 0, 0);
}

/* Chooses columns of the outermost array. */
static uint32_t choose(struct reader *r, const struct codrask_reading *how, const struct ArrowSchema *schema,
                       const struct ArrowArray *array) {
    struct format format;
    uint32_t error = test_structs(r, (struct rows){.schema = schema, .array = array}, &format);
    if (!error && (format.layout != RECORDS || !how->columns))
        error = refuse_next(r, CODRASK_BAD_ARROW);
    r->keys = 0;
    return error ? refused_of(r, error, schema) : codrask_choose_columns(r, how, schema, array);
}

/* Tests all structs, then the lengths by them. From then on the lengths are those of the buffers. */
static uint32_t test_lengths(struct reader *r, const struct codrask_reading *how, const struct ArrowSchema *schema,
                             const struct ArrowArray *array) {
    r->structs_alone = true;
    uint32_t error = emit_all(r, schema, array);
    if (error)
        return error;
    if (!codrask_match_lengths(r, how, array))
        return codrask_refuse(r, CODRASK_BAD_LENGTHS, 0, 0);
    r->structs_alone = false;
    r->count = r->view_buffers = r->name_bytes = r->keys = r->next_length = 0;
    r->lengths = how->lengths;
    return 0;
}

/* Makes the rows of all nodes. */
static uint32_t make_all(struct reader *r, const struct ArrowSchema *schema, const struct codrask_limits *limits) {
    r->memory = calloc(1, sizeof *r->memory);
    if (!r->memory)
        return codrask_refuse(r, CODRASK_MEMORY, 0, 0);
    uint32_t error = test_bytes(r, limits);
    if (error || (error = codrask_keep_name(r, schema->name)) || (error = codrask_keep_formats(r)))
        return error;
    error = codrask_make_rows(r);
    return error ? refused_of(r, error, r->tasks[r->fault.node].schema) : 0;
}

static uint32_t read_all(struct reader *r, const struct ArrowSchema *schema, const struct ArrowArray *array,
                         const struct codrask_reading *how) {
    if (!schema || !array)
        return refuse_next(r, CODRASK_BAD_ARROW);
    uint32_t error = how->columns || how->column_count ? choose(r, how, schema, array) : 0;
    if (!error && (how->lengths || how->length_count))
        error = test_lengths(r, how, schema, array);
    return error || (error = emit_all(r, schema, array)) ? error : make_all(r, schema, &how->limits);
}

uint32_t codrask_read_arrow_sized(const struct ArrowSchema *schema, const struct ArrowArray *array, const struct codrask_reading *how,
                                  struct codrask_table *table, struct codrask_arrow_fault *fault) {
    static const struct codrask_reading plain;
    struct reader r = {.refused = NULL};
    uint32_t error = read_all(&r, schema, array, how ? how : &plain);
    *fault = (struct codrask_arrow_fault){.fault = r.fault};
    if (r.refused) {
        fault->format = r.refused->format;
        fault->name = r.refused->name;
    }
    free(r.tasks);
    free(r.choice);
    *table = (struct codrask_table){r.nodes, r.count, r.memory};
    if (error)
        codrask_table_free(table);
    return error;
}

uint32_t codrask_read_arrow(const struct ArrowSchema *schema, const struct ArrowArray *array, const struct codrask_limits *limits,
                            struct codrask_table *table, struct codrask_fault *fault) {
    struct codrask_reading how = {.limits = {limits ? limits->bytes : 0}};
    struct codrask_arrow_fault told;
    uint32_t error = codrask_read_arrow_sized(schema, array, &how, table, &told);
    *fault = told.fault;
    return error;
}

uint32_t codrask_table_from_arrow(const struct ArrowSchema *schema, const struct ArrowArray *array, struct codrask_table *table) {
    struct codrask_fault fault;
    return codrask_read_arrow(schema, array, NULL, table, &fault);
}

/* Whether it is known that an Arrow array is a column, without views and numbers that are made of its offsets. */
static bool passes(const struct ArrowSchema *schema, const struct ArrowArray *array, const struct codrask_reading *how) {
    struct reader r = {.lends = true};
    bool known = !read_all(&r, schema, array, how) && !r.cannot_lend && codrask_passes(r.nodes, r.count);
    struct codrask_table table = {r.nodes, r.count, r.memory};
    free(r.tasks);
    free(r.choice);
    codrask_table_free(&table);
    return known;
}

uint32_t codrask_check_read(const struct ArrowSchema *schema, const struct ArrowArray *array, const struct codrask_reading *how,
                            struct codrask_fault *fault) {
    struct codrask_table table;
    struct codrask_arrow_fault told = {.fault = {.number = 0}};
    uint32_t error = 0;
    if (!passes(schema, array, how) && !(error = codrask_read_arrow_sized(schema, array, how, &table, &told))) {
        error = codrask_check(table.nodes, table.count, &told.fault);
        codrask_table_free(&table);
    }
    *fault = told.fault;
    return error;
}

uint32_t codrask_check_arrow(const struct ArrowSchema *schema, const struct ArrowArray *array, struct codrask_fault *fault) {
    static const struct codrask_reading plain;
    return codrask_check_read(schema, array, &plain, fault);
}
