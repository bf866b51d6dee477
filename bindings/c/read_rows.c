/* Arrow's C Data Interface as tables of nodes: what rows are looked at for. Nulls are counted, and views, heaps, sizes, offsets and
 * names are made, when it is known how many bytes all of them have. */
#include "inside.h"

#include <stdlib.h>

/* ---- memory ---- */

/* A block that the table has. */
static void *block_of(struct reader *r, size_t count, size_t width) {
    size_t size = codrask_add(codrask_multiply(count, width), sizeof(struct block));
    struct block *block = size < PTRDIFF_MAX ? malloc(size) : NULL;
    if (!block)
        return NULL;
    block->next = r->memory->blocks;
    r->memory->blocks = block;
    return block + 1;
}

static uint32_t no_memory(struct reader *r) {
    return codrask_refuse(r, CODRASK_MEMORY, 0, 0);
}

void codrask_free_memory(struct table_memory *memory) {
    for (struct block *block = memory ? memory->blocks : NULL; block;) {
        struct block *next = block->next;
        free(block);
        block = next;
    }
    free(memory);
}

uint32_t codrask_keep_name(struct reader *reader, const char *name) {
    size_t size = name ? strlen(name) : 0;
    char *copy = block_of(reader, size + 1, 1);
    if (!copy)
        return no_memory(reader);
    if (size)
        memcpy(copy, name, size);
    copy[size] = 0;
    reader->memory->name = copy;
    return 0;
}

uint32_t codrask_keep_formats(struct reader *reader) {
    uint8_t *formats = block_of(reader, reader->count, 1);
    if (!formats)
        return no_memory(reader);
    for (size_t i = 0; i < reader->count; i++)
        formats[i] = reader->tasks[i].form;
    reader->memory->formats = formats;
    return 0;
}

/* ---- how many bytes ---- */

/* How many bytes a buffer of views has; 0 where that is not told, and where there is no buffer, but for a negative size. */
static int64_t heap_size(const struct ArrowArray *array, size_t i) {
    const uint8_t *sizes = array->buffers[array->n_buffers - 1];
    int64_t size = sizes ? codrask_offset_at(sizes, 8, i) : 0;
    return array->buffers[i + 2] || size < 0 ? size : 0;
}

static void spend_heaps(struct budget *budget, const struct codrask_node *node, const struct task *task) {
    size_t count = node->buffer_count;
    codrask_spend(budget, node->views, 16 * node->view_count, 16 * node->view_count);
    codrask_spend(budget, task->array->buffers, count * sizeof *task->array->buffers, count * sizeof *node->buffers);
    for (size_t i = 0; i < count; i++) {
        int64_t size = heap_size(task->array, i);
        size_t bytes = size > 0 ? (size_t)size : 0;
        codrask_spend(budget, task->array->buffers[i + 2], bytes, bytes);
    }
}

static void spend_names(struct budget *budget, const struct codrask_node *node, const struct task *task) {
    for (size_t i = 0; i < node->buffer_count; i++) {
        const char *name = task->schema->children[i]->name;
        size_t size = name ? strlen(name) : 0;
        codrask_spend(budget, name, size, size + sizeof *node->buffers);
    }
}

static void spend_word(struct budget *budget, const struct ArrowSchema *schema) {
    struct carried carried;
    codrask_read_extension(schema->metadata, &carried);
    codrask_spend(budget, carried.extension.bytes, carried.extension.count, 0);
    codrask_spend(budget, carried.metadata.bytes, carried.metadata.count, 0);
    codrask_spend(budget, schema->format, strlen(schema->format), codrask_write_name(schema, NULL) + sizeof(struct codrask_bytes));
}

void codrask_spend_task(struct budget *budget, const struct codrask_node *node, const struct task *task) {
    size_t looked_at = node->length ? (task->bit + node->length - 1) / 8 + 1 : 0;
    if (task->bitmap && node->validity != CODRASK_BY_ARRAY)
        codrask_spend(budget, task->bitmap, looked_at, looked_at);
    if (task->offsets)
        codrask_spend(budget, task->offsets, (node->length + 1) * task->width, 0);
    switch (task->work) {
    case MAKE_VIEWS:
        codrask_spend(budget, task->heap ? task->heap + task->base : NULL, (size_t)(task->end - task->base),
                      (size_t)(task->end - task->base));
        codrask_spend(budget, NULL, 0, codrask_multiply(node->length, sizeof *node->views));
        return;
    case MAKE_OFFSETS:
    case MAKE_SIZES: codrask_spend(budget, NULL, 0, codrask_multiply(node->length, 8)); return;
    case MAKE_HEAPS: spend_heaps(budget, node, task); return;
    case MAKE_NAMES: spend_names(budget, node, task); return;
    case MAKE_WORD: spend_word(budget, task->schema); return;
    case NO_WORK: codrask_spend_node(budget, node);
    }
}

/* ---- nulls ---- */

static bool is_set(const uint8_t *bits, size_t i) {
    return bits[i / 8] >> i % 8 & 1;
}

/* How many of the bits from `from` up to `end` are not set. */
static size_t count_unset(const uint8_t *bits, size_t from, size_t end) {
    size_t unset = 0;
    for (; from < end && from % 8; from++)
        unset += !is_set(bits, from);
    for (; from + 64 <= end; from += 64) {
        uint64_t word;
        memcpy(&word, bits + from / 8, 8);
        unset += (size_t)__builtin_popcountll(~word);
    }
    for (; from < end; from++)
        unset += !is_set(bits, from);
    return unset;
}

/* The null count of an array is of all its rows, of which some may not be read: as many of them may be null as it has more. */
static bool is_false_count(const struct ArrowArray *array, bool has_bitmap, size_t length, size_t nulls) {
    if (!has_bitmap)
        return array->null_count > 0;
    return array->null_count >= 0
           && ((size_t)array->null_count < nulls || (size_t)array->null_count - nulls > (size_t)array->length - length);
}

/* So many bits lie in eight bytes, whichever is the first one. */
enum { MOST_BITS = 57 };

/* Some bits, from the lowest of a number on. What stands above them is none of theirs. */
static uint64_t bits_from(const uint8_t *bits, size_t from, size_t count) {
    uint64_t word = 0;
    size_t size = (from % 8 + count - 1) / 8 + 1;
    if (size == 8)
        memcpy(&word, bits + from / 8, 8);
    else
        memcpy(&word, bits + from / 8, size);
    return word >> from % 8;
}

/* Bits of lists, each as often as a list has rows; `before` rows of the first list are left out. */
static uint64_t spread(uint64_t bits, size_t each, size_t before, size_t count) {
    uint64_t made = 0;
    if (before + count <= each)
        return bits & 1 ? UINT64_MAX : 0;
    for (size_t i = 0; i < count; i++) {
        made |= (bits & 1) << i;
        if (++before == each)
            before = 0, bits >>= 1;
    }
    return made;
}

/* A bit for each of some rows, MOST_BITS at most: unset where a record or a list that the row lies in is null. */
static uint64_t valid_above(const struct reader *r, struct enclosing in, size_t row, size_t count) {
    uint64_t valid = UINT64_MAX;
    const struct task *task;
    for (; in.node && in.each == 1; in = task->in) {
        task = &r->tasks[in.node - 1];
        valid &= bits_from(task->bitmap, task->bit + row, count);
    }
    if (!in.node)
        return valid;
    task = &r->tasks[in.node - 1];
    size_t first = row / in.each, before = row % in.each, lists = before + count <= in.each ? 1 : (before + count - 1) / in.each + 1;
    uint64_t valid_lists = bits_from(task->bitmap, task->bit + first, lists) & valid_above(r, task->in, first, lists);
    return valid & spread(valid_lists, in.each, before, count);
}

/* The first row that is null and lies in nothing that is null; `length` where there is none. */
static size_t unexpected_null(const struct reader *r, const struct task *task, size_t length) {
    for (size_t row = 0; row < length; row += MOST_BITS) {
        size_t count = length - row < MOST_BITS ? length - row : MOST_BITS;
        uint64_t nulls = ~bits_from(task->bitmap, task->bit + row, count) & (((uint64_t)1 << count) - 1);
        if (nulls && (nulls &= valid_above(r, task->in, row, count)))
            return row + (size_t)__builtin_ctzll(nulls);
    }
    return length;
}

/* Tests the null count of an array, and that only rows are null which may be. */
static uint32_t test_nulls(struct reader *r, size_t i) {
    const struct task *task = &r->tasks[i];
    size_t length = r->nodes[i].length;
    if (!task->array)
        return 0;
    if (r->nodes[i].validity == CODRASK_ALL_INVALID)
        return task->array->null_count == -1 || task->array->null_count == task->array->length
                   ? 0
                   : codrask_refuse(r, CODRASK_BAD_NULL_COUNT, i, 0);
    size_t nulls = task->bitmap ? count_unset(task->bitmap, task->bit, task->bit + length) : 0;
    if (is_false_count(task->array, task->bitmap, length, nulls))
        return codrask_refuse(r, CODRASK_BAD_NULL_COUNT, i, 0);
    if (task->nullable || !nulls)
        return 0;
    size_t row = unexpected_null(r, task, length);
    return row < length ? codrask_refuse(r, CODRASK_UNEXPECTED_NULL, i, row) : 0;
}

/* ---- values between offsets ---- */

/* The heaps of values that lie between offsets: each has fewer than 2^31 bytes, since an Arrow view counts no more. */
struct cut {
    struct codrask_bytes *heaps;
    size_t count, room;
    const uint8_t *heap;
    int64_t start; /* where the last heap starts */
};

/* The view of a value that has no bytes which could be looked at: it names no buffer, and is refused. */
static const struct codrask_view astray = {{13, 0, 0, 0, 0, 0, 0, 0, 0xff, 0xff, 0xff, 0xff}};

/* That of a value which begins past the end of its heap, and past each buffer. It is refused too. */
static const struct codrask_view begins_past = {{13, 0, 0, 0, 0, 0, 0, 0, 0, 0, 0, 0, 0xff, 0xff, 0xff, 0xff}};

/* Starts a heap. */
static void open_heap(struct cut *cut, int64_t start) {
    cut->start = start;
    cut->heaps[cut->count++] = (struct codrask_bytes){cut->heap + start, 0};
}

/* The four fields of a view, two at a time: so they are stored as they will be loaded. */
static inline void put_fields(struct codrask_view *view, uint32_t first, uint32_t second, uint32_t third, uint32_t fourth) {
    const uint64_t halves[] = {first | (uint64_t)second << 32, third | (uint64_t)fourth << 32};
    memcpy(view->bytes, halves, sizeof halves);
}

/* Whether the last heap, or a new one, can have the bytes from `start` to `after`: not where offsets fell before it, or too often. It
 * has them then. */
static inline bool refer(struct cut *cut, int64_t start, int64_t after) {
    if (after - cut->start > INT32_MAX && cut->count < cut->room)
        open_heap(cut, start);
    if (start < cut->start || after - cut->start > INT32_MAX)
        return false;
    struct codrask_bytes *heap = &cut->heaps[cut->count - 1];
    if (heap->count < (size_t)(after - cut->start))
        heap->count = (size_t)(after - cut->start);
    return true;
}

/* The view of a value that stands in a heap. */
static inline void put_long(struct cut *cut, int64_t start, int64_t after, struct codrask_view *view) {
    uint32_t prefix;
    if (!refer(cut, start, after)) {
        *view = astray;
        return;
    }
    memcpy(&prefix, cut->heap + start, 4);
    put_fields(view, (uint32_t)(after - start), prefix, (uint32_t)(cut->count - 1), (uint32_t)(start - cut->start));
}

/* The view of a value that passes the end of its heap. Where it begins before that, its first byte is lent. */
static void put_past(struct cut *cut, int64_t start, int64_t end, struct codrask_view *view) {
    if (start >= end)
        *view = begins_past;
    else if (!refer(cut, start, start + 1))
        *view = astray;
    else
        put_fields(view, UINT32_MAX, 0, (uint32_t)(cut->count - 1), (uint32_t)(start - cut->start));
}

/* The view of a value that stands in it, with zeroes behind. */
static void put_short(struct codrask_view *view, const uint8_t *value, uint32_t size) {
    *view = (struct codrask_view){{(uint8_t)size}};
    memcpy(view->bytes + 4, value, size);
}

/* The view of a value; false of one that no view counts. */
static bool put_view(struct cut *cut, const struct task *task, int64_t start, int64_t after, struct codrask_view *view) {
    if (task->base > start || start > after)
        *view = astray;
    else if (after > task->heap_end)
        put_past(cut, start, task->end, view);
    else if (after > task->end)
        *view = astray;
    else if (after - start > INT32_MAX)
        return false;
    else if (after - start > 12)
        put_long(cut, start, after, view);
    else
        put_short(view, cut->heap + start, (uint32_t)(after - start));
    return true;
}

/* Values that lie between offsets, as views, from a row on: the first one that no view counts. */
static size_t put_views(struct cut *cut, const struct task *task, size_t row, struct codrask_view *views, size_t length) {
    int64_t start = codrask_offset_at(task->offsets, task->width, row);
    for (; row < length; row++) {
        int64_t after = codrask_offset_at(task->offsets, task->width, row + 1);
        if (!put_view(cut, task, start, after, &views[row]))
            return row;
        start = after;
    }
    return length;
}

/* Which of the twelve bytes from a value's first one on stand in its view, by its size: all of a short value, four of a long one. */
static const struct {
    uint64_t first;
    uint32_t last;
} kept_bytes[] = {
    {0, 0},
    {0xff, 0},
    {0xffff, 0},
    {0xffffff, 0},
    {UINT32_MAX, 0},
    {0xffffffffff, 0},
    {0xffffffffffff, 0},
    {0xffffffffffffff, 0},
    {UINT64_MAX, 0},
    {UINT64_MAX, 0xff},
    {UINT64_MAX, 0xffff},
    {UINT64_MAX, 0xffffff},
    {UINT64_MAX, UINT32_MAX},
    {UINT32_MAX, 0},
};

/* The view of a value of whichever size, from whose first byte on the heap has twelve bytes; a long one lies in the first heap. */
static inline void put_any(struct codrask_view *view, const uint8_t *value, uint32_t size, uint32_t place) {
    uint64_t first;
    uint32_t last, kind = size < 13 ? size : 13;
    memcpy(&first, value, 8);
    memcpy(&last, value + 8, 4);
    first &= kept_bytes[kind].first;
    last &= kept_bytes[kind].last;
    put_fields(view, size, (uint32_t)first, (uint32_t)(first >> 32), kind == 13 ? place : last);
}

/* The same of values that lie one after another in the first heap: how many, up to the first one that does not, or from whose first byte on
 * the heap has fewer than twelve. No branch depends on the size of a value. */
static inline size_t put_ordered(struct cut *cut, const struct task *task, size_t width, struct codrask_view *views, size_t length) {
    int64_t base = task->base, start = base, end = task->end - base > INT32_MAX ? base + INT32_MAX : task->end, most = base;
    size_t row = 0;
    if (codrask_offset_at(task->offsets, width, 0) != base)
        return 0;
    for (; row < length && end - start >= 12; row++) {
        int64_t after = codrask_offset_at(task->offsets, width, row + 1);
        if (after < start || after > end)
            break;
        put_any(&views[row], cut->heap + start, (uint32_t)(after - start), (uint32_t)(start - base));
        most = after - start > 12 ? after : most;
        start = after;
    }
    cut->heaps->count = (size_t)(most - base);
    return row;
}

static uint32_t make_views(struct reader *r, size_t i, const struct task *task) {
    size_t length = r->nodes[i].length, room = (size_t)(task->end - task->base) / INT32_MAX * 2 + 2;
    struct codrask_view *views = block_of(r, length, sizeof *views);
    struct cut cut = {block_of(r, room, sizeof *cut.heaps), 0, room, task->heap ? task->heap : codrask_nothing, 0};
    if (!views || !cut.heaps)
        return no_memory(r);
    open_heap(&cut, task->base);
    size_t made = task->width == 4 ? put_ordered(&cut, task, 4, views, length) : put_ordered(&cut, task, 8, views, length);
    made = put_views(&cut, task, made, views, length);
    if (made < length)
        return codrask_refuse(r, CODRASK_OVERFLOW, i, made);
    r->nodes[i].views = views;
    r->nodes[i].view_count = length;
    r->nodes[i].buffers = cut.heaps;
    r->nodes[i].buffer_count = cut.count;
    return 0;
}

/* ---- offsets that are lent ---- */

/* Lends offsets of values, with the bytes from the first to the last one, where these are those that the node would refer to, and one
 * buffer of views has them. */
static uint32_t lend_values(struct reader *r, size_t i, const struct task *task) {
    struct codrask_node *node = &r->nodes[i];
    struct codrask_bytes *heap = block_of(r, 1, sizeof *heap);
    if (!heap)
        return no_memory(r);
    if (codrask_offset_at(task->offsets, task->width, 0) != task->base
        || codrask_offset_at(task->offsets, task->width, node->length) != task->end || task->end - task->base > INT32_MAX)
        r->cannot_lend = true;
    *heap = (struct codrask_bytes){task->heap ? task->heap + task->base : codrask_nothing, (size_t)(task->end - task->base)};
    node->kind = (node->kind == CODRASK_UTF8_VIEW ? CODRASK_UTF8_OFFSETS : CODRASK_BINARY_OFFSETS) + (task->width == 8);
    node->bytes = task->offsets;
    node->byte_count = (node->length + 1) * task->width;
    node->buffers = heap;
    node->buffer_count = 1;
    return 0;
}

/* Lends offsets of lists, or for sizes one more. The node before that of sizes has the offsets; where they begin with 0 and stand there
 * as they are, they are lent as well. */
static void lend_numbers(struct reader *r, size_t i, const struct task *task) {
    struct codrask_node *node = &r->nodes[i], *before = node - 1;
    bool sizes = task->work == MAKE_SIZES;
    if (sizes && before->bytes == task->offsets && !codrask_offset_at(task->offsets, task->width, 0))
        before->kind = CODRASK_STARTS + (task->width == 8);
    node->kind = (sizes ? CODRASK_SIZES : CODRASK_STARTS) + (task->width == 8);
    node->bytes = task->offsets;
    node->byte_count = (node->length + sizes) * task->width;
}

/* ---- the rest ---- */

/* The buffers of views. */
static uint32_t make_heaps(struct reader *r, size_t i, const struct task *task) {
    struct codrask_node *node = &r->nodes[i];
    struct codrask_bytes *heaps = block_of(r, node->buffer_count, sizeof *heaps);
    if (!heaps)
        return no_memory(r);
    for (size_t k = 0; k < node->buffer_count; k++) {
        const uint8_t *bytes = task->array->buffers[k + 2];
        int64_t size = heap_size(task->array, k);
        if (size < 0)
            return codrask_refuse(r, CODRASK_BAD_ARROW, i, k);
        heaps[k] = (struct codrask_bytes){bytes ? bytes : codrask_nothing, (size_t)size};
    }
    node->buffers = heaps;
    return 0;
}

/* An offset less the first one; where no number is that small, it stays too small. */
static int64_t less(int64_t offset, int64_t base) {
    int64_t made;
    return __builtin_sub_overflow(offset, base, &made) ? INT64_MIN : made;
}

static inline void put_numbers(const struct task *task, size_t width, int64_t *numbers, size_t length) {
    bool sizes = task->work == MAKE_SIZES;
    for (size_t row = 0; row < length; row++) {
        int64_t before = sizes ? codrask_offset_at(task->offsets, width, row) : task->base;
        numbers[row] = less(codrask_offset_at(task->offsets, width, row + sizes), before);
    }
}

/* The offsets of lists, from 0 on, or their sizes: each offset but the first, less the one before it. */
static uint32_t make_numbers(struct reader *r, size_t i, const struct task *task) {
    size_t length = r->nodes[i].length;
    int64_t *numbers = block_of(r, length, sizeof *numbers);
    if (!numbers)
        return no_memory(r);
    if (task->width == 4)
        put_numbers(task, 4, numbers, length);
    else
        put_numbers(task, 8, numbers, length);
    r->nodes[i].bytes = (const void *)numbers;
    r->nodes[i].byte_count = length * sizeof *numbers;
    return 0;
}

/* Copies of the names of columns or elements. */
static uint32_t make_names(struct reader *r, size_t i, const struct task *task) {
    struct codrask_node *node = &r->nodes[i];
    size_t bytes = 0;
    for (size_t k = 0; k < node->buffer_count; k++)
        bytes += task->schema->children[k]->name ? strlen(task->schema->children[k]->name) : 0;
    struct codrask_bytes *names = block_of(r, 1, node->buffer_count * sizeof *names + bytes);
    if (!names)
        return no_memory(r);
    uint8_t *copy = (uint8_t *)(names + node->buffer_count);
    for (size_t k = 0; k < node->buffer_count; k++) {
        const char *name = task->schema->children[k]->name;
        names[k] = (struct codrask_bytes){copy, name ? strlen(name) : 0};
        if (names[k].count)
            memcpy(copy, name, names[k].count);
        copy += names[k].count;
    }
    node->buffers = names;
    return 0;
}

/* The name that a column is carried under. */
static uint32_t make_word(struct reader *r, size_t i, const struct task *task) {
    size_t size = codrask_write_name(task->schema, NULL);
    struct codrask_bytes *name = block_of(r, 1, sizeof *name + size);
    if (!name)
        return no_memory(r);
    codrask_write_name(task->schema, (uint8_t *)(name + 1));
    *name = (struct codrask_bytes){(const uint8_t *)(name + 1), size};
    r->nodes[i].buffers = name;
    return 0;
}

static uint32_t do_task(struct reader *r, size_t i) {
    const struct task *task = &r->tasks[i];
    switch (task->work) {
    case MAKE_VIEWS: return r->lends ? lend_values(r, i, task) : make_views(r, i, task);
    case MAKE_HEAPS: return make_heaps(r, i, task);
    case MAKE_OFFSETS:
    case MAKE_SIZES:
        if (r->lends)
            lend_numbers(r, i, task);
        return r->lends ? 0 : make_numbers(r, i, task);
    case MAKE_NAMES: return make_names(r, i, task);
    case MAKE_WORD: return make_word(r, i, task);
    default: return 0;
    }
}

uint32_t codrask_make_rows(struct reader *reader) {
    for (size_t i = 0; i < reader->count; i++) {
        uint32_t error = test_nulls(reader, i);
        if (error || (error = do_task(reader, i)))
            return error;
    }
    return 0;
}
