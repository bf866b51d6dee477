/* What foreign columns cost, a million rows of each layout: their check, beside a loop that trusts them and beside one copy of their
 * bytes; and their way from Arrow through a filter and a pack to Arrow, with all memory that was taken for it. Milliseconds of the
 * processor, the least of five runs by turns. Linked with --wrap of malloc, calloc and realloc. No test: tools/foreign --speed runs it. */
#include "codrask.h"

#include <stdio.h>
#include <stdlib.h>
#include <string.h>
#include <time.h>

enum { ROWS = 1000000, EACH = 4, TEXT = 20, COLUMNS = 5, RUNS = 5 };

/* ---- memory that is taken ---- */

void *__real_malloc(size_t size);
void *__real_calloc(size_t count, size_t width);
void *__real_realloc(void *block, size_t size);
void *__wrap_malloc(size_t size);
void *__wrap_calloc(size_t count, size_t width);
void *__wrap_realloc(void *block, size_t size);

static size_t taken;

void *__wrap_malloc(size_t size) {
    taken += size;
    return __real_malloc(size);
}

void *__wrap_calloc(size_t count, size_t width) {
    taken += count * width;
    return __real_calloc(count, width);
}

void *__wrap_realloc(void *block, size_t size) {
    taken += size;
    return __real_realloc(block, size);
}

/* ---- columns ---- */

/* A column as Arrow has it: of each buffer, how many bytes a row has there; the last one of lists are the elements, which Arrow keeps
 * apart. And a loop that adds up all that it holds. */
struct column {
    const char *name;
    struct ArrowSchema schema;
    struct ArrowArray array;
    const void *buffers[4];
    size_t each[4];
    uint64_t (*add_up)(const struct column *);
};

static struct ArrowSchema element_schema, *element_schemas[] = {&element_schema};
static struct ArrowArray element_array, *element_arrays[] = {&element_array};

static void keep_schema(struct ArrowSchema *schema) {
    schema->release = NULL;
}

static void keep_array(struct ArrowArray *array) {
    array->release = NULL;
}

static void *block(size_t size) {
    void *bytes = malloc(size);
    if (!bytes)
        abort();
    return bytes;
}

static void set(struct column *c, const char *name, const char *format, int64_t buffers, uint64_t (*add_up)(const struct column *)) {
    int64_t parts = format[0] == '+';
    c->name = name, c->add_up = add_up;
    c->schema = (struct ArrowSchema){.format = format, .n_children = parts, .children = element_schemas, .release = keep_schema};
    c->array = (struct ArrowArray){.length = ROWS,
                                   .n_buffers = buffers,
                                   .buffers = c->buffers,
                                   .n_children = parts,
                                   .children = element_arrays,
                                   .release = keep_array};
}

static void put(struct column *c, size_t place, const void *bytes, size_t each) {
    c->buffers[place] = bytes, c->each[place] = each;
}

static size_t bytes_of_row(const struct column *c) {
    return c->each[1] + c->each[2] + c->each[3];
}

/* Numbers by their place. */
static int64_t *integers(size_t count) {
    int64_t *numbers = block(8 * count);
    for (size_t i = 0; i < count; i++)
        numbers[i] = (int64_t)i;
    return numbers;
}

/* So many equal steps from 0 on. */
static int32_t *offsets(int32_t step) {
    int32_t *numbers = block(4 * (ROWS + 1));
    for (int32_t i = 0; i <= ROWS; i++)
        numbers[i] = step * i;
    return numbers;
}

/* Lists of four that lie scattered. */
static int64_t *scattered(void) {
    int64_t *numbers = block(8 * ROWS);
    for (int64_t i = 0; i < ROWS; i++)
        numbers[i] = i * 7919 % (ROWS * EACH - EACH);
    return numbers;
}

static int64_t *sizes(void) {
    int64_t *numbers = block(8 * ROWS);
    for (int64_t i = 0; i < ROWS; i++)
        numbers[i] = EACH;
    return numbers;
}

static struct codrask_view *views(const uint8_t *heap) {
    struct codrask_view *made = block(16 * ROWS);
    for (uint32_t i = 0; i < ROWS; i++) {
        uint32_t fields[] = {TEXT, 0, 0, i * TEXT};
        memcpy(fields + 1, heap + i * TEXT, 4);
        memcpy(made[i].bytes, fields, 16);
    }
    return made;
}

/* ---- loops that trust ---- */

static uint64_t add_integers(const struct column *c) {
    const int64_t *numbers = c->buffers[1];
    uint64_t sum = 0;
    for (size_t i = 0; i < ROWS; i++)
        sum += (uint64_t)numbers[i];
    return sum;
}

static uint64_t add_views(const struct column *c) {
    const struct codrask_view *all = c->buffers[1];
    const uint8_t *heap = c->buffers[2];
    uint64_t sum = 0;
    for (size_t i = 0; i < ROWS; i++) {
        uint32_t size, start;
        memcpy(&size, all[i].bytes, 4);
        memcpy(&start, all[i].bytes + 12, 4);
        for (uint32_t k = 0; k < size; k++)
            sum += heap[start + k];
    }
    return sum;
}

static uint64_t add_texts(const struct column *c) {
    const int32_t *ends = c->buffers[1];
    const uint8_t *heap = c->buffers[2];
    uint64_t sum = 0;
    for (size_t i = 0; i < ROWS; i++)
        for (int32_t k = ends[i]; k < ends[i + 1]; k++)
            sum += heap[k];
    return sum;
}

static uint64_t add_lists(const struct column *c) {
    const int32_t *ends = c->buffers[1];
    const int64_t *elements = c->buffers[2];
    uint64_t sum = 0;
    for (size_t i = 0; i < ROWS; i++)
        for (int32_t k = ends[i]; k < ends[i + 1]; k++)
            sum += (uint64_t)elements[k];
    return sum;
}

static uint64_t add_list_views(const struct column *c) {
    const int64_t *starts = c->buffers[1], *counts = c->buffers[2], *elements = c->buffers[3];
    uint64_t sum = 0;
    for (size_t i = 0; i < ROWS; i++)
        for (int64_t k = 0; k < counts[i]; k++)
            sum += (uint64_t)elements[starts[i] + k];
    return sum;
}

static struct column columns[COLUMNS];

static void make_columns(void) {
    static const int64_t heap_size[] = {(int64_t)ROWS * TEXT};
    static const void *elements[2];
    uint8_t *heap = block((size_t)ROWS * TEXT);
    memset(heap, 'a', (size_t)ROWS * TEXT);
    elements[1] = integers((size_t)ROWS * EACH);
    element_schema = (struct ArrowSchema){.format = "l", .release = keep_schema};
    element_array = (struct ArrowArray){.length = ROWS * EACH, .n_buffers = 2, .buffers = elements, .release = keep_array};
    set(&columns[0], "integers of 8 bytes", "l", 2, add_integers);
    put(&columns[0], 1, integers(ROWS), 8);
    set(&columns[1], "texts of 20 bytes by views", "vu", 4, add_views);
    put(&columns[1], 1, views(heap), 16), put(&columns[1], 2, heap, TEXT), put(&columns[1], 3, heap_size, 0);
    set(&columns[2], "texts of 20 bytes by offsets", "u", 3, add_texts);
    put(&columns[2], 1, offsets(TEXT), 4), put(&columns[2], 2, heap, TEXT);
    set(&columns[3], "lists of 4 integers by offsets", "+l", 2, add_lists);
    put(&columns[3], 1, offsets(EACH), 4), put(&columns[3], 2, elements[1], 8 * EACH);
    set(&columns[4], "the same scattered, by views", "+vL", 3, add_list_views);
    put(&columns[4], 1, scattered(), 8), put(&columns[4], 2, sizes(), 8), put(&columns[4], 3, elements[1], 8 * EACH);
}

/* ---- what is timed ---- */

static volatile uint64_t seen;

static void check(const struct column *c) {
    struct codrask_fault fault;
    if (codrask_check_arrow(&c->schema, &c->array, &fault))
        abort();
}

static void trust(const struct column *c) {
    seen += c->add_up(c);
}

/* One copy of what so many rows have, each buffer into a new block. */
static void copy_rows(const struct column *c, size_t rows) {
    for (size_t i = 1; i < 4; i++) {
        size_t size = rows * c->each[i];
        uint8_t *to = size ? memcpy(block(size), c->buffers[i], size) : NULL;
        seen += size ? to[size - 1] : 0;
        free(to);
    }
}

static void copy(const struct column *c) {
    copy_rows(c, ROWS);
}

static void copy_half(const struct column *c) {
    copy_rows(c, ROWS / 2);
}

/* The rows of a table at every other place, packed. */
static void keep_half(const struct codrask_table *table, struct codrask_columns *kept) {
    static const size_t none[2], wanted = 3;
    static uint8_t bits[ROWS / 8];
    const void *nothing = none;
    struct codrask_node mask = {
        .length = ROWS, .bytes = memset(bits, 0x55, sizeof bits), .byte_count = sizeof bits, .views = nothing, .buffers = nothing};
    struct codrask_step steps[] = {
        {.kind = CODRASK_FILTER, .other = 1, .arrays = none, .names = nothing, .name = nothing},
        {.kind = CODRASK_PACK, .array = 2, .arrays = none, .names = nothing, .name = nothing}};
    struct codrask_column both[] = {{table->nodes, table->count}, {&mask, 1}};
    struct codrask_run_fault fault;
    if (codrask_run(both, 2, steps, 2, &wanted, 1, kept, &fault))
        abort();
}

/* From Arrow, filtered and packed, and out to Arrow. */
static void there_and_back(const struct column *c) {
    struct codrask_table table;
    struct codrask_columns kept = CODRASK_NO_COLUMNS;
    struct codrask_fault fault;
    struct ArrowSchema schema;
    struct ArrowArray array;
    if (codrask_read_arrow(&c->schema, &c->array, NULL, &table, &fault))
        abort();
    keep_half(&table, &kept);
    codrask_table_free(&table);
    const struct codrask_column *column = &kept.columns[0];
    if (codrask_write_passed(column->nodes, column->count, NULL, CODRASK_BY_VIEWS, NULL, NULL, &schema, &array, &fault))
        abort();
    codrask_columns_free(&kept);
    array.release(&array);
    schema.release(&schema);
}

/* ---- the table ---- */

enum { CHECK, TRUST, COPY, THERE_AND_BACK, COPY_HALF, CALLS };

static void (*const calls[])(const struct column *) = {check, trust, copy, there_and_back, copy_half};
static double least[COLUMNS][CALLS], taken_by[COLUMNS];

static void time_once(size_t column, size_t call) {
    taken = 0;
    clock_t start = clock();
    calls[call](&columns[column]);
    double time = 1000.0 * (double)(clock() - start) / CLOCKS_PER_SEC, *best = &least[column][call];
    *best = *best && *best < time ? *best : time;
    if (call == THERE_AND_BACK)
        taken_by[column] = (double)taken;
}

static void print_checks(void) {
    printf("%-32s%8s%8s%8s%12s%8s\n", "a million", "MB", "check", "loop", "check/loop", "copy");
    for (size_t i = 0; i < COLUMNS; i++) {
        const double *times = least[i];
        printf("%-32s%8.0f%8.2f%8.2f%12.2f%8.2f\n", columns[i].name, (double)(ROWS * bytes_of_row(&columns[i])) / 1e6, times[CHECK],
               times[TRUST], times[CHECK] / times[TRUST], times[COPY]);
    }
}

static void print_filters(void) {
    printf("%-32s%8s%8s%8s%12s\n", "half of them, Arrow to Arrow", "MB", "time", "copy", "taken/kept");
    for (size_t i = 0; i < COLUMNS; i++) {
        double kept = (double)(ROWS / 2 * bytes_of_row(&columns[i]));
        printf("%-32s%8.0f%8.2f%8.2f%12.2f\n", columns[i].name, kept / 1e6, least[i][THERE_AND_BACK], least[i][COPY_HALF],
               taken_by[i] / kept);
    }
}

int main(void) {
    make_columns();
    for (size_t turn = 0; turn < RUNS * COLUMNS * CALLS; turn++)
        time_once(turn / CALLS % COLUMNS, turn % CALLS);
    print_checks();
    print_filters();
    return 0;
}
