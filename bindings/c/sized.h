/* Reads Arrow arrays with lengths, and compares what comes of it. For the tests alone. */
#ifndef SIZED_H
#define SIZED_H

#include "arrow_by_hand.h"

static struct codrask_arrow_fault told;
static const struct codrask_fault no_fault;

static inline bool is_same_fault(struct codrask_fault one, struct codrask_fault other) {
    return one.number == other.number && one.node == other.node && one.place == other.place;
}

/* Makes a table and checks it; where there is a fault, no table is left. */
static struct codrask_fault read_sized(const struct ArrowSchema *schema, const struct ArrowArray *array, struct codrask_reading how,
                                       struct codrask_table *table) {
    uint32_t number = codrask_read_arrow_sized(schema, array, &how, table, &told);
    if (number != told.fault.number || (number && (table->nodes || table->memory)))
        return (struct codrask_fault){UINT32_MAX, 0, 0};
    if (!number && codrask_check(table->nodes, table->count, &told.fault))
        codrask_table_free(table);
    return told.fault;
}

static inline void expect_fault(const char *what, struct codrask_fault found, uint32_t number, size_t node, size_t place) {
    bool good = is_same_fault(found, (struct codrask_fault){number, node, place});
    if (!good)
        printf("%u %s at node %zu, place %zu, wanted %u at node %zu, place %zu\n", found.number, codrask_fault_name(found.number),
               found.node, found.place, number, node, place);
    tell(what, good);
}

/* ---- tables that are one ---- */

static bool is_same_node(const struct codrask_node *one, const struct codrask_node *other) {
    bool same = one->kind == other->kind && one->validity == other->validity && one->size == other->size && one->length == other->length
                && one->offset == other->offset && one->byte_count == other->byte_count && one->view_count == other->view_count
                && one->buffer_count == other->buffer_count && !memcmp(one->bytes, other->bytes, one->byte_count)
                && !memcmp(one->views, other->views, 16 * one->view_count);
    for (size_t i = 0; same && i < one->buffer_count; i++)
        same = one->buffers[i].count == other->buffers[i].count
               && !memcmp(one->buffers[i].bytes, other->buffers[i].bytes, one->buffers[i].count);
    return same;
}

static inline bool is_same_table(const struct codrask_table *one, const struct codrask_table *other) {
    bool same = one->count == other->count && !strcmp(codrask_table_name(one), codrask_table_name(other));
    for (size_t i = 0; same && i < one->count; i++)
        same = is_same_node(&one->nodes[i], &other->nodes[i]);
    return same;
}

typedef bool is_same(const struct codrask_table *one, const struct codrask_table *other);

/* Whether an array, read so, has a fault, or if that is none, is the table that is wanted. */
static inline bool is_told(const struct ArrowSchema *schema, const struct ArrowArray *array, struct codrask_reading how, is_same *is_wanted,
                    const struct codrask_table *wanted, struct codrask_fault fault) {
    struct codrask_table table;
    if (!is_same_fault(read_sized(schema, array, how, &table), fault)) {
        printf("told %s at node %zu, place %zu, and not %s at node %zu, place %zu\n", codrask_fault_name(told.fault.number),
               told.fault.node, told.fault.place, codrask_fault_name(fault.number), fault.node, fault.place);
        return false;
    }
    if (fault.number)
        return true;
    bool same = is_wanted(&table, wanted);
    codrask_table_free(&table);
    return same;
}

#endif
