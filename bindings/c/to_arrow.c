/* Columns as Arrow arrays. A table is tested by codrask_check before it is read, where it has not passed before, and copied: what is made
 * has blocks of its own, and each array and schema gives back just its own. */
#include "inside.h"

#include <stdio.h>
#include <stdlib.h>

/* What a schema or an array has beside itself; while it is released, also what it was. */
struct schema_owner {
    struct ArrowSchema was;
    struct schema_owner *next;
    struct block *blocks;
    size_t place; /* of the first node that its array has, counted from 1 */
};

struct array_owner {
    struct ArrowArray was;
    struct array_owner *next;
    struct block *blocks;
};

struct pair {
    struct ArrowSchema *schema;
    struct ArrowArray *array;
};

/* What is still to be made: the array of the next node; the offsets and sizes of lists or maps whose elements are made; or what records
 * say of the array that they carry, which is made. */
struct part {
    struct pair pair;
    enum { ARRAY, ENDS, ENDS_OF_MAPS, RECORDS_OVER } what;
    size_t node; /* of the lists or the records */
};

/* What is being made, and the nodes that it is made of, which have passed. The parts that are still to be made wait, the next one
 * last. So no nest is too deep for a stack. */
struct maker {
    const struct codrask_node *nodes;
    size_t at, node_count;
    const uint8_t *formats; /* none, or one for each node */
    uint32_t flags;
    size_t made, most;
    struct part *waiting;
    size_t waiting_count;
    size_t node, row; /* where a fault is */
};

/* ---- memory ---- */

/* A block of zeroes for a schema or an array; it has a byte at least. */
static void *block_of(struct block **blocks, size_t count, size_t width) {
    size_t size = codrask_add(codrask_multiply(count, width), sizeof(struct block) + 1);
    struct block *block = size < PTRDIFF_MAX ? calloc(1, size) : NULL;
    if (!block)
        return NULL;
    block->next = *blocks;
    *blocks = block;
    return block + 1;
}

void *codrask_schema_block(struct ArrowSchema *schema, size_t count, size_t width) {
    struct schema_owner *owner = schema->private_data;
    return block_of(&owner->blocks, count, width);
}

static void *schema_block(struct pair p, size_t count, size_t width) {
    return codrask_schema_block(p.schema, count, width);
}

static void *array_block(struct pair p, size_t count, size_t width) {
    struct array_owner *owner = p.array->private_data;
    return block_of(&owner->blocks, count, width);
}

static void free_blocks(struct block *block) {
    while (block) {
        struct block *next = block->next;
        free(block);
        block = next;
    }
}

static void release_schema(struct ArrowSchema *schema);
static void release_array(struct ArrowArray *array);

/* Takes a schema over, to be given back. One that was taken out has no release; one of others is released by theirs. */
static void take_schema(struct ArrowSchema *schema, struct schema_owner **owners) {
    if (!schema || !schema->release)
        return;
    if (schema->release != release_schema) {
        schema->release(schema);
        return;
    }
    struct schema_owner *owner = schema->private_data;
    owner->was = *schema;
    owner->next = *owners;
    *owners = owner;
    schema->release = NULL;
}

static void release_schema(struct ArrowSchema *schema) {
    struct schema_owner *owner = NULL;
    take_schema(schema, &owner);
    while (owner) {
        struct schema_owner *this = owner;
        owner = this->next;
        for (int64_t i = 0; i < this->was.n_children; i++)
            take_schema(this->was.children[i], &owner);
        take_schema(this->was.dictionary, &owner);
        free_blocks(this->blocks);
        free(this);
    }
}

/* The same of an array. */
static void take_array(struct ArrowArray *array, struct array_owner **owners) {
    if (!array || !array->release)
        return;
    if (array->release != release_array) {
        array->release(array);
        return;
    }
    struct array_owner *owner = array->private_data;
    owner->was = *array;
    owner->next = *owners;
    *owners = owner;
    array->release = NULL;
}

static void release_array(struct ArrowArray *array) {
    struct array_owner *owner = NULL;
    take_array(array, &owner);
    while (owner) {
        struct array_owner *this = owner;
        owner = this->next;
        for (int64_t i = 0; i < this->was.n_children; i++)
            take_array(this->was.children[i], &owner);
        take_array(this->was.dictionary, &owner);
        free_blocks(this->blocks);
        free(this);
    }
}

uint32_t codrask_open_schema(struct ArrowSchema *schema) {
    struct schema_owner *owner = calloc(1, sizeof *owner);
    if (!owner)
        return CODRASK_MEMORY;
    *schema = (struct ArrowSchema){.format = "", .name = "", .release = release_schema, .private_data = owner};
    return 0;
}

size_t codrask_node_of(const struct ArrowSchema *schema) {
    const struct schema_owner *owner = schema->private_data;
    return owner->place - 1;
}

/* A schema and an array that have nothing yet, and can be released. */
static uint32_t open_pair(struct pair p) {
    struct array_owner *array = calloc(1, sizeof *array);
    if (!array || codrask_open_schema(p.schema)) {
        free(array);
        return CODRASK_MEMORY;
    }
    *p.array = (struct ArrowArray){.release = release_array, .private_data = array};
    return 0;
}

/* ---- what a node has ---- */

static bool bit_at(const struct codrask_node *node, size_t i) {
    i += node->offset;
    return node->bytes[i / 8] >> i % 8 & 1;
}

/* How the node at a place is written. */
static enum codrask_format format_at(const struct maker *m, size_t at) {
    if (m->formats && m->formats[at])
        return m->formats[at];
    return m->flags & CODRASK_BY_OFFSETS ? CODRASK_SMALL_OFFSETS : CODRASK_LARGE_VIEWS;
}

static bool is_by_offsets(enum codrask_format format) {
    return format == CODRASK_SMALL_OFFSETS || format == CODRASK_LARGE_OFFSETS;
}

static size_t width_of(uint32_t kind) {
    static const uint8_t widths[] = {0, 1, 2, 4, 8, 1, 2, 4, 8};
    return kind < sizeof widths ? widths[kind] : 0;
}

/* A number of a node of counts. */
static uint64_t count_at(const struct codrask_node *node, size_t i) {
    uint16_t of_16;
    uint32_t of_32;
    uint64_t of_64;
    switch (width_of(node->kind)) {
    case 1: return node->bytes[i];
    case 2: memcpy(&of_16, node->bytes + 2 * i, 2); return of_16;
    case 4: memcpy(&of_32, node->bytes + 4 * i, 4); return of_32;
    default: memcpy(&of_64, node->bytes + 8 * i, 8); return of_64;
    }
}

static bool is_null(const struct codrask_node *node, const struct codrask_node *mask, size_t i) {
    return node->validity == CODRASK_ALL_INVALID || (mask && !bit_at(mask, i));
}

/* The field `i` of a view, of 4 bytes. */
static uint32_t view_field(const struct codrask_view *view, size_t i) {
    uint32_t field;
    memcpy(&field, view->bytes + 4 * i, 4);
    return field;
}

static uint32_t size_of_view(const struct codrask_view *view) {
    return view_field(view, 0);
}

/* The next node of counts, which is of numbers itself. */
static const struct codrask_node *counts(struct maker *m) {
    const struct codrask_node *node = &m->nodes[m->at++];
    return width_of(node->kind) ? node : NULL;
}

/* Whether the array at a node may have nulls: of a dictionary, its codes or its values; of what is carried, the record or its column. */
static bool may_be_null(const struct maker *m, size_t at) {
    for (;; at++) {
        bool dictionary = m->nodes[at].kind == CODRASK_DICTIONARY, carried = codrask_is_carried(&m->nodes[at]);
        at += dictionary;
        if (m->nodes[at].validity != CODRASK_NON_NULLABLE)
            return true;
        if (!dictionary && !carried)
            return false;
    }
}

/* ---- parts ---- */

/* The row of the node that is being made has a fault. */
static uint32_t refuse_row(struct maker *m, uint32_t number, size_t row) {
    m->row = row;
    return number;
}

static uint32_t set_format(struct pair p, const char *format) {
    char *copy = schema_block(p, strlen(format) + 1, 1);
    if (!copy)
        return CODRASK_MEMORY;
    memcpy(copy, format, strlen(format) + 1);
    p.schema->format = copy;
    return 0;
}

/* A copy of a name; Arrow's names end at a byte 0. */
static uint32_t set_name(struct pair p, struct codrask_bytes name) {
    if (memchr(name.bytes, 0, name.count))
        return CODRASK_BAD_ARROW;
    char *copy = schema_block(p, codrask_add(name.count, 1), 1);
    if (!copy)
        return CODRASK_MEMORY;
    memcpy(copy, name.bytes, name.count);
    p.schema->name = copy;
    return 0;
}

/* So many buffers, none of them there yet. */
static uint32_t set_buffers(struct pair p, size_t count) {
    p.array->buffers = array_block(p, count, sizeof *p.array->buffers);
    p.array->n_buffers = (int64_t)count;
    return p.array->buffers ? 0 : CODRASK_MEMORY;
}

/* A new block of zeroes as a buffer. */
static uint32_t add_buffer(struct maker *m, struct pair p, size_t place, size_t count, size_t width, void *block) {
    m->made = codrask_add(m->made, codrask_multiply(count, width));
    if (m->made > m->most)
        return CODRASK_TOO_MANY_BYTES;
    void *made = array_block(p, count, width);
    if (!made)
        return CODRASK_MEMORY;
    p.array->buffers[place] = made;
    memcpy(block, &made, sizeof made);
    return 0;
}

static uint32_t copy_buffer(struct maker *m, struct pair p, size_t place, const void *bytes, size_t size) {
    void *block;
    uint32_t error = add_buffer(m, p, place, size, 1, &block);
    if (!error)
        memcpy(block, bytes, size);
    return error;
}

/* The truth values of a node, the first at bit 0; how many are false is counted. */
static uint32_t copy_bits(struct maker *m, struct pair p, size_t place, const struct codrask_node *node, int64_t *none) {
    uint8_t *bits;
    uint32_t error = add_buffer(m, p, place, node->length / 8 + 1, 1, &bits);
    if (error)
        return error;
    *none = 0;
    for (size_t i = 0; i < node->length; i++) {
        bool bit = bit_at(node, i);
        bits[i / 8] = (uint8_t)(bits[i / 8] | bit << i % 8);
        *none += !bit;
    }
    return 0;
}

/* The bitmap of a node, whose array of truth values is the next node where there is one. */
static uint32_t set_validity(struct maker *m, struct pair p, const struct codrask_node *node, const struct codrask_node **mask) {
    uint8_t *zeroes;
    *mask = NULL;
    p.schema->flags = node->validity == CODRASK_NON_NULLABLE ? 0 : ARROW_FLAG_NULLABLE;
    if (node->validity == CODRASK_ALL_INVALID) {
        p.array->null_count = (int64_t)node->length;
        return add_buffer(m, p, 0, node->length / 8 + 1, 1, &zeroes);
    }
    if (node->validity != CODRASK_BY_ARRAY)
        return 0;
    *mask = &m->nodes[m->at++];
    return (*mask)->kind == CODRASK_BOOL ? copy_bits(m, p, 0, *mask, &p.array->null_count) : CODRASK_BAD_ARROW;
}

/* Room for so many children. */
static uint32_t set_children(struct pair p, size_t count) {
    struct ArrowSchema *schemas = schema_block(p, count, sizeof *schemas);
    struct ArrowArray *arrays = array_block(p, count, sizeof *arrays);
    p.schema->children = schema_block(p, count, sizeof *p.schema->children);
    p.array->children = array_block(p, count, sizeof *p.array->children);
    if (!schemas || !arrays || !p.schema->children || !p.array->children)
        return CODRASK_MEMORY;
    for (size_t i = 0; i < count; i++) {
        p.schema->children[i] = &schemas[i];
        p.array->children[i] = &arrays[i];
    }
    p.schema->n_children = p.array->n_children = (int64_t)count;
    for (size_t i = 0; i < count; i++)
        if (open_pair((struct pair){&schemas[i], &arrays[i]}))
            return CODRASK_MEMORY;
    return 0;
}

/* The array of the next node waits to be made before all that waits already. */
static void wait_for(struct maker *m, struct pair p) {
    m->waiting[m->waiting_count++] = (struct part){p, ARRAY, 0};
}

static struct pair child_of(struct pair p, size_t i) {
    return (struct pair){p.schema->children[i], p.array->children[i]};
}

/* ---- layouts ---- */

static uint32_t make_flat(struct maker *m, struct pair p, const struct codrask_node *node) {
    static const char *const formats[] = {"b", "C", "S", "I", "L", "c", "s", "i", "l"};
    const struct codrask_node *mask;
    int64_t none;
    uint32_t error = set_format(p, formats[node->kind]);
    if (error || (error = set_buffers(p, 2)) || (error = set_validity(m, p, node, &mask)))
        return error;
    return node->kind == CODRASK_BOOL ? copy_bits(m, p, 1, node, &none) : copy_buffer(m, p, 1, node->bytes, node->byte_count);
}

/* A view as Arrow has it: what follows a short value is zero, and a number has 31 bits. */
static bool copy_view(struct codrask_view *to, const struct codrask_view *from) {
    uint32_t size = size_of_view(from);
    if (size <= 12) {
        memcpy(to->bytes, from->bytes, 4 + size);
        return true;
    }
    *to = *from;
    return size <= INT32_MAX && view_field(from, 2) <= INT32_MAX && view_field(from, 3) <= INT32_MAX;
}

/* Views and what they refer to; the view of a null row is 16 zero bytes. */
static uint32_t make_views(struct maker *m, struct pair p, const struct codrask_node *node) {
    const struct codrask_node *mask;
    struct codrask_view *views;
    int64_t *sizes;
    uint32_t error = set_format(p, node->kind == CODRASK_UTF8_VIEW ? "vu" : "vz");
    if (error || (error = set_buffers(p, node->buffer_count + 3)) || (error = set_validity(m, p, node, &mask))
        || (error = add_buffer(m, p, 1, node->length, sizeof *views, &views))
        || (error = add_buffer(m, p, node->buffer_count + 2, node->buffer_count, sizeof *sizes, &sizes)))
        return error;
    for (size_t i = 0; i < node->length; i++)
        if (!is_null(node, mask, i) && !copy_view(&views[i], &node->views[i]))
            return refuse_row(m, CODRASK_OVERFLOW, i);
    for (size_t i = 0; i < node->buffer_count; i++) {
        sizes[i] = (int64_t)node->buffers[i].count;
        if ((error = copy_buffer(m, p, i + 2, node->buffers[i].bytes, node->buffers[i].count)))
            return error;
    }
    return 0;
}

static void put_offset(void *offsets, size_t width, size_t i, uint64_t value) {
    uint32_t of_32 = (uint32_t)value;
    if (width == 4)
        memcpy((uint8_t *)offsets + 4 * i, &of_32, 4);
    else
        memcpy((uint8_t *)offsets + 8 * i, &value, 8);
}

static const uint8_t *value_at(const struct codrask_node *node, size_t i) {
    const struct codrask_view *view = &node->views[i];
    return size_of_view(view) <= 12 ? view->bytes + 4 : node->buffers[view_field(view, 2)].bytes + view_field(view, 3);
}

/* How many bytes the values of the rows that are not null have. */
static size_t total_of(const struct codrask_node *node, const struct codrask_node *mask) {
    size_t total = 0;
    for (size_t i = 0; i < node->length; i++)
        if (!is_null(node, mask, i))
            total = codrask_add(total, size_of_view(&node->views[i]));
    return total;
}

/* The values one after another, with offsets. */
static uint32_t make_values(struct maker *m, struct pair p, const struct codrask_node *node) {
    static const char *const formats[] = {"u", "U", "z", "Z"};
    const struct codrask_node *mask;
    void *offsets;
    uint8_t *heap;
    uint32_t error = set_buffers(p, 3);
    if (error || (error = set_validity(m, p, node, &mask)))
        return error;
    size_t total = total_of(node, mask), end = 0;
    size_t width = total <= INT32_MAX && format_at(m, m->node) == CODRASK_SMALL_OFFSETS ? 4 : 8;
    if (total > INT64_MAX)
        return CODRASK_OVERFLOW;
    if ((error = set_format(p, formats[2 * (node->kind == CODRASK_BINARY_VIEW) + (width == 8)]))
        || (error = add_buffer(m, p, 1, node->length + 1, width, &offsets)) || (error = add_buffer(m, p, 2, total, 1, &heap)))
        return error;
    for (size_t i = 0; i < node->length; i++) {
        size_t size = is_null(node, mask, i) ? 0 : size_of_view(&node->views[i]);
        if (size)
            memcpy(heap + end, value_at(node, i), size);
        put_offset(offsets, width, i + 1, end += size);
    }
    return 0;
}

/* Where list `i` ends; false where Arrow's signed numbers do not tell that. */
static bool end_of_list(const struct codrask_node *offsets, const struct codrask_node *sizes, size_t i, uint64_t *end) {
    uint64_t offset = count_at(offsets, i), size = count_at(sizes, i);
    *end = offset + size;
    return offset <= INT64_MAX && size <= INT64_MAX - offset;
}

/* Offsets alone, of lists of which each begins where the one before it ends. Those of maps are small. */
static uint32_t offsets_of_lists(struct maker *m, struct pair p, const struct codrask_node *offsets, const struct codrask_node *sizes,
                                 bool map) {
    size_t n = offsets->length;
    uint64_t end = 0;
    void *made;
    bool large = n && (!end_of_list(offsets, sizes, n - 1, &end) || end > INT32_MAX);
    size_t width = !map && (large || format_at(m, m->node) == CODRASK_LARGE_OFFSETS) ? 8 : 4;
    uint32_t error = set_format(p, map ? "+m" : width == 4 ? "+l" : "+L");
    if (error || (error = add_buffer(m, p, 1, n + 1, width, &made)))
        return error;
    for (size_t i = 0; i < n; i++) {
        if (i && count_at(offsets, i) != end)
            return refuse_row(m, CODRASK_NOT_END_TO_END, i);
        if (!end_of_list(offsets, sizes, i, &end) || (map && end > INT32_MAX))
            return refuse_row(m, CODRASK_OVERFLOW, i);
        put_offset(made, width, i, count_at(offsets, i));
    }
    put_offset(made, width, n, end);
    return 0;
}

/* Whether all lists end where 31 bits tell it. */
static bool are_small(const struct codrask_node *offsets, const struct codrask_node *sizes) {
    uint64_t end;
    for (size_t i = 0; i < offsets->length; i++)
        if (!end_of_list(offsets, sizes, i, &end) || end > INT32_MAX)
            return false;
    return true;
}

static uint32_t views_of_lists(struct maker *m, struct pair p, const struct codrask_node *offsets, const struct codrask_node *sizes) {
    void *starts, *lengths;
    uint64_t end;
    size_t width = format_at(m, m->node) == CODRASK_SMALL_VIEWS && are_small(offsets, sizes) ? 4 : 8;
    uint32_t error = set_format(p, width == 4 ? "+vl" : "+vL");
    if (error || (error = add_buffer(m, p, 1, offsets->length, width, &starts))
        || (error = add_buffer(m, p, 2, offsets->length, width, &lengths)))
        return error;
    for (size_t i = 0; i < offsets->length; i++) {
        if (!end_of_list(offsets, sizes, i, &end))
            return refuse_row(m, CODRASK_OVERFLOW, i);
        put_offset(starts, width, i, count_at(offsets, i));
        put_offset(lengths, width, i, count_at(sizes, i));
    }
    return 0;
}

/* The offsets and sizes of lists: their nodes follow those of the elements. */
static uint32_t make_ends(struct maker *m, struct pair p, bool map) {
    const struct codrask_node *offsets = counts(m), *sizes = offsets ? counts(m) : NULL;
    if (!sizes)
        return CODRASK_BAD_ARROW;
    return map || is_by_offsets(format_at(m, m->node)) ? offsets_of_lists(m, p, offsets, sizes, map) : views_of_lists(m, p, offsets, sizes);
}

/* The elements of lists, under the name that the node has for them. */
static uint32_t make_elements(struct maker *m, struct pair p, const struct codrask_node *node) {
    uint32_t error = set_children(p, 1);
    if (error || (node->buffer_count && (error = set_name(child_of(p, 0), node->buffers[0]))))
        return error;
    wait_for(m, child_of(p, 0));
    return 0;
}

static uint32_t make_lists(struct maker *m, struct pair p, const struct codrask_node *node, bool map) {
    const struct codrask_node *mask;
    uint32_t error = set_buffers(p, map || is_by_offsets(format_at(m, m->node)) ? 2 : 3);
    if (error || (error = set_validity(m, p, node, &mask)))
        return error;
    m->waiting[m->waiting_count++] = (struct part){p, map ? ENDS_OF_MAPS : ENDS, m->node};
    return make_elements(m, p, node);
}

static uint32_t make_fixed(struct maker *m, struct pair p, const struct codrask_node *node) {
    const struct codrask_node *mask;
    char format[16];
    if (node->size > INT32_MAX)
        return CODRASK_OVERFLOW;
    snprintf(format, sizeof format, "+w:%u", (unsigned)node->size);
    uint32_t error = set_format(p, format);
    if (error || (error = set_buffers(p, 1)) || (error = set_validity(m, p, node, &mask)))
        return error;
    return make_elements(m, p, node);
}

static uint32_t make_records(struct maker *m, struct pair p, const struct codrask_node *node) {
    const struct codrask_node *mask;
    uint32_t error = set_format(p, "+s");
    if (error || (error = set_buffers(p, 1)) || (error = set_validity(m, p, node, &mask)) || (error = set_children(p, node->buffer_count)))
        return error;
    for (size_t i = 0; i < node->buffer_count; i++)
        if ((error = set_name(child_of(p, i), node->buffers[i])))
            return error == CODRASK_MEMORY ? error : refuse_row(m, error, i);
    for (size_t i = node->buffer_count; i-- > 0;)
        wait_for(m, child_of(p, i));
    return 0;
}

/* Codes, which have the nulls, and values. */
static uint32_t make_dictionary(struct maker *m, struct pair p) {
    const struct codrask_node *codes = counts(m);
    if (!codes)
        return CODRASK_BAD_ARROW;
    bool nullable = may_be_null(m, m->node);
    uint32_t error = make_flat(m, p, codes);
    if (error)
        return error;
    struct pair values = {schema_block(p, 1, sizeof *values.schema), array_block(p, 1, sizeof *values.array)};
    if (!values.schema || !values.array || open_pair(values))
        return CODRASK_MEMORY;
    p.schema->dictionary = values.schema;
    p.array->dictionary = values.array;
    p.schema->flags = nullable ? ARROW_FLAG_NULLABLE : 0;
    wait_for(m, values);
    return 0;
}

/* ---- what is carried ---- */

/* The nulls of records, beside those of the array that they carry. */
static uint32_t add_nulls(struct maker *m, struct pair p, const struct codrask_node *record, const struct codrask_node *mask) {
    const uint8_t *valid = p.array->n_buffers ? p.array->buffers[0] : NULL;
    uint8_t *bits;
    p.schema->flags |= record->validity == CODRASK_NON_NULLABLE ? 0 : ARROW_FLAG_NULLABLE;
    if (record->validity == CODRASK_NON_NULLABLE || record->validity == CODRASK_ALL_VALID || !p.array->n_buffers)
        return 0;
    uint32_t error = add_buffer(m, p, 0, record->length / 8 + 1, 1, &bits);
    if (error)
        return error;
    p.array->null_count = 0;
    for (size_t i = 0; i < record->length; i++) {
        bool bit = !is_null(record, mask, i) && (!valid || valid[i / 8] >> i % 8 & 1);
        bits[i / 8] = (uint8_t)(bits[i / 8] | bit << i % 8);
        p.array->null_count += !bit;
    }
    return 0;
}

/* The extension of what is carried; an array has one at most. */
static uint32_t set_extension(struct pair p, const struct carried *carried) {
    if (!carried->extension.bytes)
        return 0;
    if (p.schema->metadata)
        return CODRASK_BAD_ARROW;
    char *metadata = schema_block(p, codrask_write_extension(carried, NULL), 1);
    if (!metadata)
        return CODRASK_MEMORY;
    codrask_write_extension(carried, metadata);
    p.schema->metadata = metadata;
    return 0;
}

/* What records say of the array that they carry: their nulls, their extension, and that its codes are ordered, where it has codes. */
static uint32_t make_over(struct maker *m, struct pair p, const struct codrask_node *record) {
    struct carried carried = codrask_carried_of(record);
    uint32_t error = add_nulls(m, p, record, record->validity == CODRASK_BY_ARRAY ? record + 1 : NULL);
    if (p.schema->dictionary && carried.word.count)
        p.schema->flags |= ARROW_FLAG_DICTIONARY_ORDERED;
    return error ? error : set_extension(p, &carried);
}

/* Nulls alone, which have no buffers: each record is null. */
static uint32_t make_nulls(struct maker *m, struct pair p, const struct codrask_node *record, const struct codrask_node *mask) {
    m->at += 2;
    for (size_t i = 0; i < record->length && record->validity != CODRASK_ALL_INVALID; i++)
        if (!is_null(record, mask, i))
            return refuse_row(m, CODRASK_BAD_ARROW, i);
    p.schema->flags = ARROW_FLAG_NULLABLE;
    p.array->null_count = p.array->length;
    return set_buffers(p, 0);
}

/* The bytes of values of one width. */
static uint32_t make_bytes(struct maker *m, struct pair p, const struct format *format) {
    const struct codrask_node *values = &m->nodes[m->at++];
    if (format->kind == CODRASK_FIXED_SIZE_LIST)
        values = &m->nodes[m->at++];
    uint32_t error = set_buffers(p, 2);
    return error ? error : copy_buffer(m, p, 1, values->bytes, values->byte_count);
}

static uint32_t make_maps(struct maker *m, struct pair p, const struct carried *carried) {
    const struct codrask_node *lists = &m->nodes[m->at];
    m->node = m->at++;
    uint32_t error = make_lists(m, p, lists, true);
    p.schema->flags |= carried->sorted ? ARROW_FLAG_MAP_KEYS_SORTED : 0;
    return error;
}

/* What records carry, in their place. */
static uint32_t make_carried(struct maker *m, struct pair p, const struct codrask_node *record) {
    struct carried carried = codrask_carried_of(record);
    const struct codrask_node *mask = record->validity == CODRASK_BY_ARRAY ? &m->nodes[m->at++] : NULL;
    char *word = schema_block(p, carried.word.count + 1, 1);
    if (!word)
        return CODRASK_MEMORY;
    memcpy(word, carried.word.bytes, carried.word.count);
    if ((mask && mask->kind != CODRASK_BOOL) || !codrask_has_form(&m->nodes[m->at], &carried, word))
        return CODRASK_BAD_ARROW;
    if (carried.format.layout == RECORDS) {
        m->waiting[m->waiting_count++] = (struct part){p, RECORDS_OVER, m->node};
        wait_for(m, p);
        return 0;
    }
    p.schema->format = word;
    uint32_t error = carried.format.layout == NULLS  ? make_nulls(m, p, record, mask)
                     : carried.format.layout == MAPS ? make_maps(m, p, &carried)
                                                     : make_bytes(m, p, &carried.format);
    return error || (error = add_nulls(m, p, record, mask)) ? error : set_extension(p, &carried);
}

/* The array of the next node. */
static uint32_t make_next(struct maker *m, struct pair p) {
    struct schema_owner *owner = p.schema->private_data;
    owner->place = owner->place ? owner->place : m->at + 1;
    m->node = m->at;
    const struct codrask_node *node = &m->nodes[m->at++];
    if (node->length > INT64_MAX)
        return CODRASK_OVERFLOW;
    p.array->length = (int64_t)node->length;
    switch (node->kind) {
    case CODRASK_UTF8_VIEW:
    case CODRASK_BINARY_VIEW:
        return is_by_offsets(format_at(m, m->node)) ? make_values(m, p, node) : make_views(m, p, node);
    case CODRASK_DICTIONARY: return make_dictionary(m, p);
    case CODRASK_FIXED_SIZE_LIST: return make_fixed(m, p, node);
    case CODRASK_LIST_VIEW: return make_lists(m, p, node, false);
    case CODRASK_STRUCT: return codrask_is_carried(node) ? make_carried(m, p, node) : make_records(m, p, node);
    default: return make_flat(m, p, node);
    }
}

/* ---- the call ---- */

/* What is made of a node after its parts. */
static uint32_t make_rest(struct maker *m, struct part part) {
    m->node = part.node;
    if (part.what == RECORDS_OVER)
        return make_over(m, part.pair, &m->nodes[part.node]);
    return make_ends(m, part.pair, part.what == ENDS_OF_MAPS);
}

/* Makes all that waits. */
static uint32_t make_all(struct maker *m) {
    while (m->waiting_count) {
        struct part part = m->waiting[--m->waiting_count];
        uint32_t error = part.what == ARRAY ? make_next(m, part.pair) : make_rest(m, part);
        if (error)
            return error;
    }
    return 0;
}

/* How many bytes may be made; the nodes themselves may not have more, since codrask_check copies them. */
static uint32_t test_bytes(struct maker *m, const struct codrask_limits *limits) {
    struct budget budget = {.ranges = NULL};
    for (size_t i = 0; i < m->node_count; i++)
        codrask_spend_node(&budget, &m->nodes[i]);
    bool no_memory = budget.no_memory;
    m->most = codrask_most_bytes(&budget, limits);
    if (no_memory)
        return CODRASK_MEMORY;
    for (budget.spent = 0; m->node < m->node_count; m->node++) {
        codrask_spend_node(&budget, &m->nodes[m->node]);
        if (budget.spent > m->most)
            return CODRASK_TOO_MANY_BYTES;
    }
    return 0;
}

/* Makes the array of a table that has passed. */
static uint32_t make_column(struct maker *m, const char *name, struct pair p) {
    struct codrask_bytes bytes = {(const uint8_t *)name, name ? strlen(name) : 0};
    uint32_t error = open_pair(p);
    if (error || (name && (error = set_name(p, bytes))))
        return error;
    m->waiting = calloc(m->node_count, sizeof *m->waiting); /* what waits has a node of its own */
    if (!m->waiting)
        return CODRASK_MEMORY;
    wait_for(m, p);
    error = make_all(m);
    free(m->waiting);
    return error;
}

/* Tests the flags, and the formats of as many nodes as a table can have. */
static uint32_t test_formats(struct maker *m) {
    if (m->flags & ~(uint32_t)CODRASK_BY_OFFSETS)
        return CODRASK_BAD_FLAGS;
    for (size_t i = 0; m->formats && i < m->node_count && i < MOST_NODES; i++)
        if (m->formats[i] > MOST_FORMAT) {
            m->node = i;
            return CODRASK_BAD_FLAGS;
        }
    return 0;
}

/* Tests the flags, the formats and the bytes of a table, and the table itself where it has not passed; one of no node, or of too many,
 * has not. */
static uint32_t test_table(struct maker *m, const struct codrask_limits *limits, bool passed, struct codrask_fault *fault) {
    bool has_room = m->node_count <= MOST_NODES;
    uint32_t error = test_formats(m);
    if (!error && has_room)
        error = test_bytes(m, limits);
    if (error || (passed && has_room && m->node_count))
        return error;
    error = codrask_check(m->nodes, m->node_count, fault);
    m->node = fault->node;
    m->row = fault->place;
    return error;
}

/* Writes a table, which is tested first where it has not passed. */
static uint32_t write_table(struct maker *m, const char *name, const struct codrask_limits *limits, bool passed, struct pair p,
                            struct codrask_fault *fault) {
    *p.schema = (struct ArrowSchema){.release = NULL};
    *p.array = (struct ArrowArray){.release = NULL};
    uint32_t error = test_table(m, limits, passed, fault);
    if (!error)
        error = make_column(m, name, p);
    if (error && p.schema->release)
        p.schema->release(p.schema);
    if (error && p.array->release)
        p.array->release(p.array);
    *fault = (struct codrask_fault){error, error && error != CODRASK_MEMORY ? m->node : 0, m->row};
    return error;
}

uint32_t codrask_write_arrow_as(const struct codrask_node *nodes, size_t node_count, const uint8_t *formats, uint32_t flags,
                                const char *name, const struct codrask_limits *limits, struct ArrowSchema *schema,
                                struct ArrowArray *array, struct codrask_fault *fault) {
    struct maker m = {.nodes = nodes, .node_count = node_count, .formats = formats, .flags = flags};
    return write_table(&m, name, limits, false, (struct pair){schema, array}, fault);
}

uint32_t codrask_write_passed(const struct codrask_node *nodes, size_t node_count, const uint8_t *formats, uint32_t flags,
                              const char *name, const struct codrask_limits *limits, struct ArrowSchema *schema, struct ArrowArray *array,
                              struct codrask_fault *fault) {
    struct maker m = {.nodes = nodes, .node_count = node_count, .formats = formats, .flags = flags};
    return write_table(&m, name, limits, true, (struct pair){schema, array}, fault);
}

uint32_t codrask_write_arrow(const struct codrask_node *nodes, size_t node_count, uint32_t flags, const char *name,
                             const struct codrask_limits *limits, struct ArrowSchema *schema, struct ArrowArray *array,
                             struct codrask_fault *fault) {
    return codrask_write_arrow_as(nodes, node_count, NULL, flags, name, limits, schema, array, fault);
}

uint32_t codrask_to_arrow(const struct codrask_node *nodes, size_t node_count, uint32_t flags, struct ArrowSchema *schema,
                          struct ArrowArray *array, struct codrask_fault *fault) {
    return codrask_write_arrow(nodes, node_count, flags, NULL, NULL, schema, array, fault);
}
