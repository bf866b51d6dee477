/* How many bytes a call may take: at most a small multiple of the distinct bytes that it is given. */
#include "inside.h"

#include <stdlib.h>

static const size_t ALWAYS = 8 << 20, TIMES = 8;

size_t codrask_add(size_t one, size_t other) {
    size_t sum;
    return __builtin_add_overflow(one, other, &sum) ? SIZE_MAX : sum;
}

size_t codrask_multiply(size_t one, size_t other) {
    size_t product;
    return __builtin_mul_overflow(one, other, &product) ? SIZE_MAX : product;
}

/* Room for one range more. */
static bool has_room(struct budget *budget) {
    if (budget->count < budget->room)
        return true;
    size_t room = budget->room ? 2 * budget->room : 64;
    struct range *ranges = realloc(budget->ranges, room * sizeof *ranges);
    if (!ranges)
        return false;
    budget->ranges = ranges;
    budget->room = room;
    return true;
}

void codrask_spend(struct budget *budget, const void *given, size_t size, size_t spent) {
    budget->spent = codrask_add(budget->spent, spent);
    if (budget->only_spends || budget->no_memory || !given || !size)
        return;
    if (!has_room(budget)) {
        budget->no_memory = true;
        return;
    }
    uintptr_t start = (uintptr_t)given;
    budget->ranges[budget->count++] = (struct range){start, codrask_add(start, size)};
}

static void spend_buffers(struct budget *budget, const struct codrask_node *node) {
    for (size_t i = 0; i < node->buffer_count; i++)
        codrask_spend(budget, node->buffers[i].bytes, node->buffers[i].count, node->buffers[i].count);
}

void codrask_spend_node(struct budget *budget, const struct codrask_node *node) {
    size_t views = codrask_multiply(node->view_count, sizeof *node->views),
           names = codrask_multiply(node->buffer_count, sizeof *node->buffers);
    switch (node->kind) {
    case CODRASK_UTF8_VIEW:
    case CODRASK_BINARY_VIEW:
        codrask_spend(budget, node->views, views, views);
        spend_buffers(budget, node);
        return;
    case CODRASK_STRUCT:
        codrask_spend(budget, node->buffers, names, names);
        spend_buffers(budget, node);
        return;
    default:
        if (node->kind <= CODRASK_I64)
            codrask_spend(budget, node->bytes, node->byte_count, node->byte_count);
    }
}

static int compare(const void *one, const void *other) {
    const struct range *a = one, *b = other;
    return (a->start > b->start) - (a->start < b->start);
}

/* How many bytes some range has. */
static size_t distinct(struct budget *budget) {
    size_t bytes = 0;
    uintptr_t seen = 0;
    if (budget->count)
        qsort(budget->ranges, budget->count, sizeof *budget->ranges, compare);
    for (size_t i = 0; i < budget->count; i++) {
        struct range range = budget->ranges[i];
        if (range.start < seen)
            range.start = seen;
        if (range.start < range.end) {
            bytes += range.end - range.start;
            seen = range.end;
        }
    }
    return bytes;
}

size_t codrask_most_bytes(struct budget *budget, const struct codrask_limits *limits) {
    size_t most = codrask_multiply(distinct(budget), TIMES);
    free(budget->ranges);
    budget->ranges = NULL;
    budget->count = budget->room = 0;
    budget->only_spends = true;
    if (limits && limits->bytes)
        return limits->bytes;
    return most < ALWAYS ? ALWAYS : most;
}
