/* Structs of few bytes take at most 64 MiB and a second, each: what would make more of them is refused, by name; and what is given
 * twice, or in many slices, is read. Linked with --wrap of malloc, calloc, realloc and free. The last line is 'N passed, M failed'. */
#define _DEFAULT_SOURCE
#include "arrow_by_hand.h"
#include "by_hand.h"
#include "turned_structures.h"

#include <malloc.h>
#include <time.h>

void *__real_malloc(size_t size);
void *__real_realloc(void *block, size_t size);
void *__real_calloc(size_t count, size_t width);
void __real_free(void *block);
void *__wrap_malloc(size_t size);
void *__wrap_realloc(void *old, size_t size);
void *__wrap_calloc(size_t count, size_t width);
void __wrap_free(void *old);

static size_t held, most;

static void *hold(void *block) {
    held += block ? malloc_usable_size(block) : 0;
    most = held > most ? held : most;
    return block;
}

void *__wrap_malloc(size_t size) {
    return hold(__real_malloc(size));
}

void *__wrap_realloc(void *old, size_t size) {
    size_t before = old ? malloc_usable_size(old) : 0;
    void *block = __real_realloc(old, size);
    held -= block ? before : 0;
    return hold(block);
}

void *__wrap_calloc(size_t count, size_t width) {
    return hold(__real_calloc(count, width));
}

void __wrap_free(void *old) {
    held -= old ? malloc_usable_size(old) : 0;
    __real_free(old);
}

static size_t before;
static clock_t start;

static void begin(void) {
    before = most = held;
    start = clock();
}

/* Whether little was taken since, and all of it was given back. */
static bool is_little(void) {
    double seconds = (double)(clock() - start) / CLOCKS_PER_SEC;
    bool good = most - before <= (size_t)64 << 20 && seconds <= 1 && held == before;
    if (!good)
        printf("%zu KiB and %.2f seconds, %zu bytes held\n", (most - before) >> 10, seconds, held - before);
    return good;
}

static struct codrask_fault fault;

static void read_little(const char *what, const struct ArrowSchema *schema, const struct ArrowArray *array, uint32_t number, size_t node) {
    begin();
    expect(what, schema, array, number, node, 0);
    tell(what, is_little());
}

static void write_little(const char *what, const struct codrask_node *nodes, size_t count, uint32_t flags, uint32_t number, size_t node) {
    struct ArrowSchema schema;
    struct ArrowArray array;
    begin();
    uint32_t answer = codrask_to_arrow(nodes, count, flags, &schema, &array, &fault);
    if (!answer) {
        schema.release(&schema);
        array.release(&array);
    }
    if (answer != number || fault.node != node)
        printf("%u %s at node %zu\n", answer, codrask_fault_name(answer), fault.node);
    tell(what, answer == number && fault.node == node && is_little());
}

/* ---- reading ---- */

/* A struct that names one child twice, level under level. */
static void doubled(void) {
    static struct ArrowSchema schemas[31], *schema_parts[31][2];
    static struct ArrowArray arrays[31], *parts[31][2];
    static const void *none_there[1];
    static const size_t levels[] = {11, 12, 22, 30};
    for (size_t k = 0; k < COUNT(levels); k++) {
        for (size_t i = 0; i <= levels[k]; i++) {
            int64_t children = i < levels[k] ? 2 : 0;
            schemas[i] = schema("+s", 0, schema_parts[i], children), arrays[i] = array(0, 0, none_there, 1, parts[i], children);
            for (size_t c = 0; c < 2 && children; c++)
                schema_parts[i][c] = &schemas[i + 1], parts[i][c] = &arrays[i + 1];
        }
        read_little("one child named twice", &schemas[0], &arrays[0], levels[k] < 12 ? 0 : CODRASK_TOO_MANY_NODES, 0);
    }
}

/* So many columns that are one. */
static void one_column(const char *what, struct ArrowSchema *column_schema, struct ArrowArray *column, size_t count, uint32_t number,
                       size_t node) {
    static struct ArrowSchema *schemas[4096];
    static struct ArrowArray *arrays[4096];
    static const void *none_there[1];
    for (size_t i = 0; i < count; i++)
        schemas[i] = column_schema, arrays[i] = column;
    struct ArrowSchema s = schema("+s", 0, schemas, (int64_t)count);
    struct ArrowArray a = array(column->length, 0, none_there, 1, arrays, (int64_t)count);
    read_little(what, &s, &a, number, node);
}

static void repeated(void) {
    static int32_t offsets[16001];
    static uint8_t heap[64000];
    const void *text[] = {NULL, offsets, heap}, *list[] = {NULL, offsets}, *bits[] = {heap, NULL};
    for (int32_t i = 0; i <= 16000; i++)
        offsets[i] = 4 * i;
    memset(heap, 0xff, sizeof heap);
    struct ArrowSchema number = schema("C", 0, NULL, 0), *children[] = {&number}, texts = schema("z", 0, NULL, 0),
                       lists = schema("+l", 0, children, 1);
    const void *flat[] = {NULL, heap};
    struct ArrowArray elements = array(64000, 0, flat, 2, NULL, 0), *parts[] = {&elements};
    struct ArrowArray text_array = array(16000, 0, text, 3, NULL, 0), list_array = array(16000, 0, list, 2, parts, 1);
    one_column("20 columns that are one of texts", &texts, &text_array, 20, 0, 0);
    one_column("4000 columns that are one of texts", &texts, &text_array, 4000, CODRASK_TOO_MANY_BYTES, 27);
    one_column("1000 columns that are one of lists", &lists, &list_array, 1000, CODRASK_TOO_MANY_BYTES, 132);
    struct ArrowSchema empty = schema("+s", 0, NULL, 0);
    struct ArrowArray rows = array(512000, 0, bits, 1, NULL, 0);
    one_column("4000 columns that are one bitmap", &empty, &rows, 4000, CODRASK_TOO_MANY_BYTES, 131);
    static char name[1 << 20];
    memset(name, 'x', sizeof name - 1);
    struct ArrowArray few = array(1, 0, flat, 2, NULL, 0);
    number.name = name;
    one_column("4000 columns of one name", &number, &few, 4000, CODRASK_TOO_MANY_BYTES, 0);
}

/* What is carried: one time zone, metadata of many keys, and rows that take no memory. */
static void carried(void) {
    static char zone[1 << 20] = "tss:";
    static int32_t keys[1 + (1 << 20)];
    static const uint8_t bytes[8];
    const void *flat[] = {NULL, bytes};
    struct ArrowSchema instant = schema(zone, 0, NULL, 0), number = schema("C", 0, NULL, 0), nulls = schema("n", 0, NULL, 0);
    struct ArrowArray few = array(1, 0, flat, 2, NULL, 0), many = array((int64_t)1 << 40, 0, NULL, 0, NULL, 0);
    struct ArrowSchema empty = schema("w:0", 0, NULL, 0);
    struct ArrowArray of_none = array((int64_t)1 << 40, 0, flat, 2, NULL, 0);
    memset(zone + 4, 'x', sizeof zone - 5);
    one_column("4000 columns of one time zone", &instant, &few, 4000, CODRASK_TOO_MANY_BYTES, 7);
    keys[0] = 1 << 19;
    number.metadata = (const char *)keys;
    one_column("4000 columns of 2^19 keys", &number, &few, 4000, CODRASK_TOO_MANY_BYTES, 3);
    one_column("2^40 rows of 1000 columns of nulls", &nulls, &many, 1000, 0, 0);
    one_column("2^40 rows of 1000 columns of no bytes", &empty, &of_none, 1000, 0, 0);
}

/* Arrays over parts of one block of offsets, each at a place of its own. */
static void overlapping(void) {
    static int32_t offsets[32001];
    static struct ArrowSchema texts, *schemas[4000];
    static struct ArrowArray columns[4000], *arrays[4000];
    const void *buffers[] = {NULL, offsets, NULL}, *none_there[] = {NULL};
    texts = schema("u", 0, NULL, 0);
    for (size_t i = 0; i < 4000; i++) {
        columns[i] = array(16000, (int64_t)i, buffers, 3, NULL, 0);
        schemas[i] = &texts, arrays[i] = &columns[i];
    }
    struct ArrowSchema s = schema("+s", 0, schemas, 4000);
    struct ArrowArray a = array(16000, 0, none_there, 1, arrays, 4000);
    read_little("4000 columns over one block of offsets", &s, &a, CODRASK_TOO_MANY_BYTES, 33);
}

static void one_buffer(void) {
    static const void *buffers[4099];
    static int64_t sizes[4096];
    static uint8_t heap[500000];
    static struct codrask_view view;
    for (size_t i = 0; i < 4096; i++)
        buffers[2 + i] = heap, sizes[i] = sizeof heap;
    buffers[1] = &view, buffers[4098] = sizes;
    struct ArrowSchema s = schema("vz", 0, NULL, 0);
    struct ArrowArray a = array(1, 0, buffers, 4099, NULL, 0);
    read_little("4096 buffers that are one", &s, &a, CODRASK_TOO_MANY_BYTES, 0);
    struct codrask_table table;
    struct codrask_limits all = {SIZE_MAX};
    tell("the same where the caller allows it", !codrask_read_arrow(&s, &a, &all, &table, &fault) && table.nodes[0].buffer_count == 4096);
    write_little("and written", table.nodes, table.count, CODRASK_BY_VIEWS, CODRASK_TOO_MANY_BYTES, 0);
    codrask_table_free(&table);
    a.n_buffers = 65540;
    read_little("65537 buffers", &s, &a, CODRASK_TOO_MANY_BUFFERS, 0);
    static const void *empty[32771];
    empty[1] = &view;
    struct ArrowArray half = array(1, 0, empty, 32771, NULL, 0);
    one_column("65536 buffers of two columns", &s, &half, 2, 0, 0);
    one_column("and of a third one", &s, &half, 3, CODRASK_TOO_MANY_BUFFERS, 3);
}

/* N slices of one column have as many bytes as the column. */
static void slices(void) {
    enum { ROWS = 100000 };
    static int32_t offsets[ROWS + 1];
    static uint8_t heap[13 * ROWS], bitmap[ROWS / 8];
    const void *buffers[] = {bitmap, offsets, heap};
    for (int32_t i = 0; i <= ROWS; i++)
        offsets[i] = 13 * i;
    memset(heap, 'x', sizeof heap);
    memset(bitmap, 0xff, sizeof bitmap);
    struct ArrowSchema s = schema("u", ARROW_FLAG_NULLABLE, NULL, 0);
    size_t bytes = 0;
    bool good = true;
    begin();
    for (int64_t from = 0; from < ROWS; from += 10) {
        struct ArrowArray a = array(10, from, buffers, 3, NULL, 0);
        struct codrask_table table;
        good = good && !codrask_read_arrow(&s, &a, NULL, &table, &fault) && !codrask_check(table.nodes, table.count, &fault);
        if (!good)
            break;
        bytes += table.nodes[0].buffers[0].count + table.nodes[1].byte_count;
        codrask_table_free(&table);
    }
    tell("slices of one column", good && bytes <= sizeof heap + 2 * ROWS / 10 && is_little());
}

/* A million rows without values: the offsets are given, and four times as many bytes are made of them. */
static void empty_rows(void) {
    enum { ROWS = 1000000 };
    static int32_t offsets[ROWS + 1];
    static const uint8_t bytes[9];
    const void *text[] = {NULL, offsets, NULL}, *list[] = {NULL, offsets}, *flat[] = {NULL, bytes};
    struct ArrowSchema number = schema("C", 0, NULL, 0), *children[] = {&number}, texts = schema("u", 0, NULL, 0),
                       lists = schema("+l", 0, children, 1);
    struct ArrowArray elements = array(9, 0, flat, 2, NULL, 0), *parts[] = {&elements};
    struct ArrowArray text_array = array(ROWS, 0, text, 3, NULL, 0), list_array = array(ROWS, 0, list, 2, parts, 1);
    expect("a million empty texts", &texts, &text_array, 0, 0, 0);
    for (size_t i = 0; i <= ROWS; i++)
        offsets[i] = 9;
    expect("a million empty lists", &lists, &list_array, 0, 0, 0);
}

/* So many levels of records, or of lists of two, over records of columns without parts, all of one bitmap, in which no bit is set. */
static void nulls_in_nulls(const char *what, const char *format, size_t levels, size_t columns) {
    static uint8_t bits[64000];
    static struct ArrowSchema schemas[64], *schema_parts[64][128];
    static struct ArrowArray arrays[64], *parts[64][128];
    static const void *bitmap[] = {bits};
    int64_t rows = 512000;
    for (size_t i = levels; i-- > 0;) {
        bool last = i + 1 == levels;
        int64_t count = last ? (int64_t)columns : 1;
        rows = last || format[1] == 's' ? rows : rows / 2;
        schemas[i] = schema(last ? "+s" : format, i ? 0 : ARROW_FLAG_NULLABLE, schema_parts[i], count);
        arrays[i] = array(rows, 0, bitmap, 1, parts[i], count);
        for (int64_t c = 0; c < count; c++)
            schema_parts[i][c] = &schemas[i + 1], parts[i][c] = &arrays[i + 1];
    }
    schemas[levels] = schema("+s", 0, NULL, 0), arrays[levels] = array(512000, 0, bitmap, 1, NULL, 0);
    read_little(what, &schemas[0], &arrays[0], 0, 0);
}

/* Names have a limit of their own. */
static void names(void) {
    static char name[(4 << 20) + 2];
    static const uint8_t bytes[1];
    const void *flat[] = {NULL, bytes}, *none_there[] = {NULL};
    struct codrask_limits all = {SIZE_MAX};
    struct codrask_table table;
    struct ArrowSchema number = schema("C", 0, NULL, 0), *schemas[] = {&number, &number}, s = schema("+s", 0, schemas, 2);
    struct ArrowArray column = array(1, 0, flat, 2, NULL, 0), *columns[] = {&column, &column}, a = array(1, 0, none_there, 1, columns, 2);
    memset(name, 'x', 2 << 20);
    number.name = name;
    s.name = "";
    tell("names of 4 MiB", !codrask_read_arrow(&s, &a, &all, &table, &fault));
    codrask_table_free(&table);
    s.name = "x";
    tell("and one byte", codrask_read_arrow(&s, &a, &all, &table, &fault) == CODRASK_TOO_MANY_BYTES && fault.node == 0);
    s.name = "", name[2 << 20] = 'x';
    tell("of a column", codrask_read_arrow(&s, &a, &all, &table, &fault) == CODRASK_TOO_MANY_BYTES && fault.node == 0);
    memset(name, 'x', sizeof name - 1);
    number.name = "x", s.name = name;
    tell("of the root", codrask_read_arrow(&s, &a, &all, &table, &fault) == CODRASK_TOO_MANY_BYTES && fault.node == 0);
}

/* ---- columns that are chosen ---- */

static void read_chosen(const char *what, const struct ArrowSchema *schema, const struct ArrowArray *array, struct codrask_reading how,
                        uint32_t number) {
    struct codrask_arrow_fault told;
    struct codrask_table table;
    begin();
    uint32_t answer = codrask_read_arrow_sized(schema, array, &how, &table, &told);
    codrask_table_free(&table);
    if (answer != number)
        printf("%u %s\n", answer, codrask_fault_name(answer));
    tell(what, answer == number && is_little());
}

/* Beside a column, unions that name one child twice, level under level: they are passed over. */
static void doubled_beside(void) {
    static struct ArrowArray unions[40], *parts[40][2];
    static const uint8_t bytes[1];
    static const char *const names[] = {"x"};
    const size_t lengths[] = {0, 0, 1};
    const void *flat[] = {NULL, bytes}, *none_there[] = {NULL};
    for (size_t i = 0; i < COUNT(unions); i++) {
        unions[i] = array(1, 0, NULL, 0, parts[i], i + 1 < COUNT(unions) ? 2 : 0);
        parts[i][0] = parts[i][1] = &unions[i + 1 < COUNT(unions) ? i + 1 : i];
    }
    struct ArrowSchema number = schema("C", 0, NULL, 0), other = schema("+us:0,1", 0, NULL, 0), *schemas[] = {&number, &other};
    struct ArrowArray column = array(1, 0, flat, 2, NULL, 0), *columns[] = {&column, &unions[0]},
                      a = array(1, 0, none_there, 1, columns, 2);
    struct ArrowSchema s = schema("+s", 0, schemas, 2);
    other.name = "y";
    struct codrask_reading how = {.columns = names, .column_count = 1};
    read_chosen("beside unions that are doubled", &s, &a, how, 0);
    how.lengths = lengths, how.length_count = 3;
    read_chosen("the same with lengths", &s, &a, how, CODRASK_BAD_LENGTHS);
}

/* 4095 columns, all chosen, from the last one to the first. */
static void all_chosen(void) {
    enum { COLUMNS = 4095 };
    static struct ArrowSchema each[COLUMNS], *schemas[COLUMNS];
    static struct ArrowArray *arrays[COLUMNS];
    static char texts[COLUMNS][8];
    static const char *names[COLUMNS];
    static size_t lengths[1 + 2 * COLUMNS];
    static const uint8_t bytes[1];
    const void *flat[] = {NULL, bytes}, *none_there[] = {NULL};
    struct ArrowArray column = array(1, 0, flat, 2, NULL, 0), a = array(1, 0, none_there, 1, arrays, COLUMNS);
    struct ArrowSchema s = schema("+s", 0, schemas, COLUMNS);
    for (size_t i = 0; i < COLUMNS; i++) {
        snprintf(texts[i], sizeof texts[i], "c%zu", i);
        each[i] = schema("C", 0, NULL, 0), each[i].name = texts[i], names[COLUMNS - 1 - i] = texts[i];
        schemas[i] = &each[i], arrays[i] = &column, lengths[2 + 2 * i] = 1;
    }
    struct codrask_reading how = {.columns = names, .column_count = COLUMNS, .lengths = lengths, .length_count = COUNT(lengths)};
    read_chosen("4095 columns that are chosen", &s, &a, how, 0);
}

/* ---- limits of the caller's ---- */

/* Twenty columns of few rows over one dictionary of 4.8 MB. */
static void shared_dictionary(void) {
    static int64_t values[600000];
    static const uint8_t codes[10];
    static struct ArrowSchema *schemas[20];
    static struct ArrowArray *columns[20];
    const void *code_buffers[] = {NULL, codes}, *value_buffers[] = {NULL, values}, *none_there[] = {NULL};
    struct ArrowSchema number = schema("l", 0, NULL, 0), code = schema("C", 0, NULL, 0), s = schema("+s", 0, schemas, 20);
    struct ArrowArray dictionary = array(COUNT(values), 0, value_buffers, 2, NULL, 0), column = array(10, 0, code_buffers, 2, NULL, 0),
                      a = array(10, 0, none_there, 1, columns, 20);
    struct codrask_limits limit = {(size_t)1 << 30};
    struct codrask_table table;
    code.dictionary = &number, column.dictionary = &dictionary;
    for (size_t i = 0; i < COUNT(columns); i++)
        schemas[i] = &code, columns[i] = &column;
    read_little("twenty columns that share a dictionary", &s, &a, CODRASK_TOO_MANY_BYTES, 24);
    tell("where the caller allows them", !codrask_read_arrow(&s, &a, &limit, &table, &fault) && table.count == 61);
    codrask_table_free(&table);
}

static void limits(void) {
    static const uint8_t bytes[1000];
    const void *flat[] = {NULL, bytes};
    struct ArrowSchema s = schema("C", 0, NULL, 0), schema;
    struct ArrowArray a = array(1000, 0, flat, 2, NULL, 0), written;
    struct codrask_table table;
    struct codrask_limits limit = {999};
    tell("a limit of the caller's",
         codrask_read_arrow(&s, &a, &limit, &table, &fault) == CODRASK_TOO_MANY_BYTES && !table.nodes && !table.memory);
    limit.bytes = 1000;
    tell("just as many bytes", !codrask_read_arrow(&s, &a, &limit, &table, &fault));
    tell("are written", !codrask_write_arrow(table.nodes, table.count, 0, "x", &limit, &schema, &written, &fault));
    schema.release(&schema);
    written.release(&written);
    limit.bytes = 999;
    tell("and not more", codrask_write_arrow(table.nodes, table.count, 0, "x", &limit, &schema, &written, &fault) == CODRASK_TOO_MANY_BYTES
                             && !schema.release);
    codrask_table_free(&table);
    struct codrask_node bits = truths(1000, bytes);
    limit.bytes = 125;
    tell("a bitmap of 126 bytes",
         codrask_write_arrow(&bits, 1, 0, "x", &limit, &schema, &written, &fault) == CODRASK_TOO_MANY_BYTES && !schema.release);
    struct codrask_bytes heap = {bytes, sizeof bytes};
    struct codrask_view view = {{13}};
    struct codrask_node text = node(CODRASK_BINARY_VIEW, 0, 1);
    text.views = &view, text.view_count = 1, text.buffers = &heap, text.buffer_count = 1;
    limit.bytes = 500;
    tell("a table of more bytes than are written",
         codrask_write_arrow(&text, 1, CODRASK_BY_OFFSETS, "x", &limit, &schema, &written, &fault) == CODRASK_TOO_MANY_BYTES);
    static struct codrask_view views[100];
    text.views = views, text.view_count = text.length = 100, text.buffer_count = 0;
    limit.bytes = 1000;
    tell("a table of more views than are written",
         codrask_write_arrow(&text, 1, CODRASK_BY_OFFSETS, "x", &limit, &schema, &written, &fault) == CODRASK_TOO_MANY_BYTES);
    limit.bytes = 126;
    tell("where as many are allowed", !codrask_write_arrow(&bits, 1, 0, "x", &limit, &schema, &written, &fault));
    schema.release(&schema);
    written.release(&written);
}

/* ---- writing ---- */

static void written(void) {
    static uint8_t heap[1 << 20];
    static struct codrask_view views[100000];
    const uint32_t size = sizeof heap;
    for (size_t i = 0; i < COUNT(views); i++)
        memcpy(views[i].bytes, &size, 4);
    struct codrask_bytes bytes = {heap, sizeof heap};
    struct codrask_node n = node(CODRASK_BINARY_VIEW, 0, COUNT(views));
    n.views = views, n.view_count = COUNT(views), n.buffers = &bytes, n.buffer_count = 1;
    write_little("one value of a mebibyte 100000 times, by views", &n, 1, CODRASK_BY_VIEWS, 0, 0);
    write_little("one value of a mebibyte 100000 times, by offsets", &n, 1, CODRASK_BY_OFFSETS, CODRASK_TOO_MANY_BYTES, 0);
    static struct codrask_bytes names_of_many[60];
    static struct codrask_node many[61];
    for (size_t i = 0; i < 60; i++)
        names_of_many[i] = (struct codrask_bytes){(const uint8_t *)"x", 1}, many[i + 1] = numbers(CODRASK_U8, sizeof heap, heap, sizeof heap);
    many[0] = node(CODRASK_STRUCT, 0, sizeof heap), many[0].buffers = names_of_many, many[0].buffer_count = 60;
    write_little("60 columns that are one mebibyte", many, 61, CODRASK_BY_VIEWS, CODRASK_TOO_MANY_BYTES, 9);
    struct codrask_bytes name = {(const uint8_t *)"x", 1};
    struct codrask_node rows[] = {node(CODRASK_STRUCT, CODRASK_ALL_VALID, (size_t)1 << 40),
                                  node(CODRASK_STRUCT, CODRASK_ALL_INVALID, (size_t)1 << 40)};
    rows[0].buffers = &name, rows[0].buffer_count = 1;
    write_little("2^40 rows that are null", rows, 2, CODRASK_BY_VIEWS, CODRASK_TOO_MANY_BYTES, 1);
}

/* ---- structures of few bytes ---- */

static void structures(void) {
    static struct structure made;
    for (uint64_t seed = 1; seed <= 500; seed++) {
        struct codrask_table table;
        build_seed(&made, seed);
        turn_structure(&made);
        begin();
        uint32_t number = codrask_read_arrow(made.slots[0].schema, made.slots[0].array, NULL, &table, &fault);
        if (!number) {
            codrask_check(table.nodes, table.count, &fault);
            codrask_table_free(&table);
        }
        tell("a structure", is_little());
        tear_down(&made);
    }
}

int main(void) {
    doubled();
    repeated();
    carried();
    overlapping();
    one_buffer();
    slices();
    empty_rows();
    nulls_in_nulls("nulls of 70 columns in records of 60 levels", "+s", 60, 70);
    nulls_in_nulls("nulls of 60 columns in lists of two of 14 levels", "+w:2", 15, 60);
    names();
    doubled_beside();
    all_chosen();
    shared_dictionary();
    limits();
    written();
    structures();
    printf("%d passed, %d failed\n", passed, failed);
    return failed != 0;
}
