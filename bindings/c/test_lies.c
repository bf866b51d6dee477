/* Arrow structs that are not what they say, by name: each is refused, at its node, before anything false is looked at. And what is
 * read of structs that say the truth in an unusual way. The last line is 'N passed, M failed'. */
#include "arrow_by_hand.h"

static const uint8_t some_valid[] = {0xfd, 0xff}, all_valid[] = {0xff, 0xff};
static const int64_t numbers[] = {1, 2, 3, 4, 5, 6, 7, 8, 9, 10};

/* Records of two columns, numbers and lists of one size of numbers: nodes 0, 1, 2 and 3. */
struct records {
    const void *no_bitmap[1], *whole[2];
    struct ArrowArray flat, elements, fixed, *columns[2], *parts[1], root;
    struct ArrowSchema flat_schema, elements_schema, fixed_schema, *column_schemas[2], *part_schemas[1], root_schema;
};

static struct records r;

static void make_records(void) {
    r = (struct records){.no_bitmap = {NULL}, .whole = {NULL, numbers}};
    r.flat = array(4, 0, r.whole, 2, NULL, 0), r.elements = array(8, 0, r.whole, 2, NULL, 0);
    r.flat_schema = schema("l", 0, NULL, 0), r.elements_schema = schema("l", 0, NULL, 0);
    r.parts[0] = &r.elements, r.part_schemas[0] = &r.elements_schema;
    r.fixed = array(4, 0, r.no_bitmap, 1, r.parts, 1), r.fixed_schema = schema("+w:2", 0, r.part_schemas, 1);
    r.columns[0] = &r.flat, r.columns[1] = &r.fixed;
    r.column_schemas[0] = &r.flat_schema, r.column_schemas[1] = &r.fixed_schema;
    r.root = array(4, 0, r.no_bitmap, 1, r.columns, 2), r.root_schema = schema("+s", 0, r.column_schemas, 2);
}

/* What is told of the records, which are then made anew. */
static void refuse(const char *what, uint32_t number, size_t node) {
    expect(what, &r.root_schema, &r.root, number, node, 0);
    make_records();
}

static void released(void) {
    make_records();
    refuse("records", 0, 0);
    r.root_schema.release = NULL;
    refuse("a schema that is released", CODRASK_RELEASED, 0);
    r.root.release = NULL;
    refuse("an array that is released", CODRASK_RELEASED, 0);
    r.elements.release = NULL;
    refuse("elements that were taken out", CODRASK_RELEASED, 3);
    r.flat_schema.release = NULL;
    refuse("the schema of a column that was taken out", CODRASK_RELEASED, 1);
    expect("no schema", NULL, &r.root, CODRASK_BAD_ARROW, 0, 0);
    expect("no array", &r.root_schema, NULL, CODRASK_BAD_ARROW, 0, 0);
}

static void counts(void) {
    int64_t *const each[] = {&r.elements.length, &r.elements.offset, &r.elements.n_buffers, &r.elements.n_children,
                             &r.elements_schema.n_children};
    for (size_t i = 0; i < COUNT(each); i++) {
        *each[i] = -1;
        refuse("a negative count", CODRASK_BAD_ARROW, 3);
    }
    r.elements.null_count = -2;
    refuse("a negative null count", CODRASK_BAD_ARROW, 3);
    r.elements.n_children = r.elements_schema.n_children = -1;
    refuse("children that are fewer than none", CODRASK_BAD_ARROW, 3);
    r.elements.length = INT64_MAX, r.elements.offset = 1;
    refuse("more rows than are counted", CODRASK_BAD_ARROW, 3);
    r.elements.offset = (int64_t)1 << 61;
    refuse("rows past all memory", CODRASK_BAD_ARROW, 3);
    r.elements.n_buffers = 3;
    refuse("a buffer more", CODRASK_BAD_ARROW, 3);
    r.elements.n_buffers = 1;
    refuse("a buffer less", CODRASK_BAD_ARROW, 3);
    r.root.n_buffers = 0;
    refuse("records without their buffer", CODRASK_BAD_ARROW, 0);
    r.fixed.buffers = NULL;
    refuse("no array of buffers", CODRASK_BAD_ARROW, 2);
    r.fixed.n_children = r.fixed_schema.n_children = 0;
    refuse("lists without elements", CODRASK_BAD_ARROW, 2);
    r.flat.n_children = r.flat_schema.n_children = 1, r.flat.children = r.columns, r.flat_schema.children = r.column_schemas;
    refuse("numbers with a child", CODRASK_BAD_ARROW, 1);
    r.root.n_children = 1;
    refuse("a column of the schema alone", CODRASK_BAD_ARROW, 0);
    r.columns[1] = NULL;
    refuse("a column that is a null pointer", CODRASK_BAD_ARROW, 0);
    r.root.children = NULL;
    refuse("no array of columns", CODRASK_BAD_ARROW, 0);
    r.root.n_children = r.root_schema.n_children = INT64_MAX;
    refuse("columns past all memory", CODRASK_TOO_MANY_NODES, 0);
    r.elements.length = 7;
    refuse("elements that are too few", CODRASK_LENGTH_MISMATCH, 2);
    r.elements_schema.format = NULL;
    refuse("no format", CODRASK_BAD_ARROW, 3);
    r.elements_schema.format = "+us:0";
    refuse("a union", CODRASK_BAD_ARROW, 3);
}

static void texts(void) {
    static const int32_t offsets[] = {0, 1, 2};
    const void *buffers[] = {NULL, offsets, "ab", "ab"};
    struct ArrowSchema s = schema("u", 0, NULL, 0);
    struct ArrowArray a = array(2, 0, buffers, 2, NULL, 0);
    expect("texts without a heap", &s, &a, CODRASK_BAD_ARROW, 0, 0);
    s.format = "z";
    expect("byte lists without a heap", &s, &a, CODRASK_BAD_ARROW, 0, 0);
    a.n_buffers = 4;
    expect("byte lists with two heaps", &s, &a, CODRASK_BAD_ARROW, 0, 0);
    s.format = "vu", a.n_buffers = 2;
    expect("views without sizes", &s, &a, CODRASK_BAD_ARROW, 0, 0);
    a.n_buffers = INT64_MAX;
    expect("buffers past all memory", &s, &a, CODRASK_TOO_MANY_BUFFERS, 0, 0);
    const int64_t size = -1;
    const struct codrask_view views[2] = {{{0}}};
    const void *views_and_heap[] = {NULL, views, "ab", &size};
    a.n_buffers = 4, a.buffers = views_and_heap;
    expect("a buffer of a negative size", &s, &a, CODRASK_BAD_ARROW, 0, 0);
    const int64_t sizes[] = {2, -1};
    const void *two_heaps[] = {NULL, views, "ab", "ab", sizes}, *none[] = {NULL};
    struct ArrowArray inner = array(2, 0, two_heaps, 5, NULL, 0), *columns[] = {&inner}, root = array(2, 0, none, 1, columns, 1);
    struct ArrowSchema *schemas[] = {&s}, records = schema("+s", 0, schemas, 1);
    expect("the second buffer of a column", &records, &root, CODRASK_BAD_ARROW, 1, 1);
    two_heaps[3] = NULL;
    expect("a null pointer of a negative size", &records, &root, CODRASK_BAD_ARROW, 1, 1);
    const int64_t large = 100000;
    const struct codrask_view long_views[2] = {{{90000 & 0xff, 90000 >> 8 & 0xff, 90000 >> 16}}, {{0}}};
    views_and_heap[1] = long_views, views_and_heap[2] = NULL, views_and_heap[3] = &large;
    expect("a buffer that is a null pointer, and its size is not 0", &s, &a, CODRASK_BAD_START, 0, 0);
}

/* Of three texts two are read; the last offset of the array tells how long the heap is, also where one that is read passes it. */
static void part_of_texts(void) {
    char *heap = malloc(20);
    int32_t offsets[] = {0, 0, 14, 20};
    const void *none[] = {NULL}, *buffers[] = {NULL, offsets, heap};
    struct ArrowArray column = array(3, 0, buffers, 3, NULL, 0), *columns[] = {&column}, root = array(2, 0, none, 1, columns, 1);
    struct ArrowSchema inner = schema("u", 0, NULL, 0), *schemas[] = {&inner}, s = schema("+s", 0, schemas, 1);
    memset(heap, 'x', 20);
    expect("two texts of three", &s, &root, 0, 0, 0);
    static const int64_t past_memory[] = {(int64_t)1 << 62, ((int64_t)1 << 62) + 3, INT64_MAX, ((int64_t)1 << 61) - 1};
    for (size_t i = 0; i < COUNT(past_memory); i++) {
        column.length = past_memory[i];
        expect("two texts of more than all memory has", &s, &root, CODRASK_BAD_ARROW, 1, 0);
    }
    column.length = 1, column.offset = INT64_MAX - 1;
    expect("a text past all memory", &s, &root, CODRASK_BAD_ARROW, 1, 0);
    column.length = 3, column.offset = 0;
    offsets[2] = 21;
    expect("an offset past the last one of the array", &s, &root, CODRASK_BAD_BUFFER, 1, 1);
    free(heap);
    static const uint8_t second_null[] = {0xfd};
    static const int32_t falling[] = {0, 40, 0, 20, 28, 40};
    const void *fallen[] = {second_null, falling, "a text of forty characters, and no more."};
    struct ArrowArray a = array(5, 0, fallen, 3, NULL, 0);
    inner.flags = ARROW_FLAG_NULLABLE;
    expect("a null row whose offset falls to the first text", &inner, &a, 0, 0, 0);
}

static void dictionaries(void) {
    static const uint8_t codes[] = {0, 1, 0, 1, 0, 0, 0, 0, 1, 0, 0, 0, 0, 0, 0, 0};
    const void *code_buffers[] = {NULL, codes}, *value_buffers[] = {NULL, numbers};
    struct ArrowArray values = array(2, 0, value_buffers, 2, NULL, 0), a = array(2, 0, code_buffers, 2, NULL, 0);
    struct ArrowSchema value = schema("l", ARROW_FLAG_NULLABLE, NULL, 0), s = schema("C", 0, NULL, 0);
    a.dictionary = &values;
    expect("a dictionary of the array alone", &s, &a, CODRASK_BAD_ARROW, 0, 0);
    s.dictionary = &value, a.dictionary = NULL;
    expect("a dictionary of the schema alone", &s, &a, CODRASK_BAD_ARROW, 0, 0);
    a.dictionary = &values;
    expect("a dictionary", &s, &a, 0, 0, 0);
    const char *const formats[] = {"tsm:UTC", "tdD", "b", "u", "+s", "f", "w:1", "n"};
    for (size_t i = 0; i < COUNT(formats); i++) {
        s.format = formats[i];
        expect("codes that are no integers", &s, &a, CODRASK_BAD_ARROW, 0, 0);
    }
    s.format = "C", value.format = "+r";
    expect("a dictionary of runs", &s, &a, CODRASK_BAD_ARROW, 2, 0);
    value.format = "l", value_buffers[0] = some_valid;
    expect("a value that is null in a dictionary that is not nullable", &s, &a, CODRASK_UNEXPECTED_NULL, 2, 1);
    s.flags = ARROW_FLAG_NULLABLE;
    expect("a value that is null", &s, &a, 0, 0, 0);
    value.flags = 0;
    expect("a value that is null, where the field alone is nullable", &s, &a, 0, 0, 0);
    struct codrask_table table = {NULL, 0, NULL};
    tell("codes and values that may be null", !codrask_table_from_arrow(&s, &a, &table) && table.count == 4
                                                  && table.nodes[1].validity == CODRASK_ALL_VALID
                                                  && table.nodes[2].validity == CODRASK_BY_ARRAY);
    codrask_table_free(&table);
    static const uint8_t first_codes[2];
    code_buffers[1] = first_codes, value.flags = ARROW_FLAG_NULLABLE, s.flags = 0;
    expect("a value that is null and that no code names", &s, &a, CODRASK_UNEXPECTED_NULL, 2, 1);
}

static void null_counts(void) {
    const void *buffers[] = {some_valid, numbers};
    struct ArrowSchema s = schema("l", ARROW_FLAG_NULLABLE, NULL, 0);
    struct ArrowArray a = array(9, 0, buffers, 2, NULL, 0);
    a.null_count = 1;
    expect("a null count", &s, &a, 0, 0, 0);
    a.null_count = 0;
    expect("a null that is not counted", &s, &a, CODRASK_BAD_NULL_COUNT, 0, 0);
    a.null_count = 2;
    expect("a null that is not there", &s, &a, CODRASK_BAD_NULL_COUNT, 0, 0);
    a.null_count = INT64_MAX;
    expect("more nulls than rows", &s, &a, CODRASK_BAD_NULL_COUNT, 0, 0);
    a.offset = 1, a.length = 8, a.null_count = 1;
    expect("a null count from an offset on", &s, &a, 0, 0, 0);
    a.offset = 2, a.length = 7;
    expect("a null before the offset that is counted", &s, &a, CODRASK_BAD_NULL_COUNT, 0, 0);
    buffers[0] = NULL;
    expect("a null count without a bitmap", &s, &a, CODRASK_BAD_NULL_COUNT, 0, 0);
    a.null_count = -1;
    expect("an unknown null count without a bitmap", &s, &a, 0, 0, 0);
    s.flags = 0, buffers[0] = some_valid, a.offset = 0, a.length = 9;
    expect("a null where none may be", &s, &a, CODRASK_UNEXPECTED_NULL, 0, 1);
    a.null_count = 1;
    expect("a counted null where none may be", &s, &a, CODRASK_UNEXPECTED_NULL, 0, 1);
    a.offset = 2, a.length = 7, a.null_count = 0;
    expect("a bitmap without a null", &s, &a, 0, 0, 0);
}

/* The trap of null counts: they are of all rows of an array, of which what it stands in may have fewer. */
static void null_counts_of_parts(void) {
    const void *none[] = {NULL}, *buffers[] = {some_valid, numbers};
    struct ArrowArray column = array(9, 0, buffers, 2, NULL, 0), *columns[] = {&column}, root = array(3, 4, none, 1, columns, 1);
    struct ArrowSchema inner = schema("l", ARROW_FLAG_NULLABLE, NULL, 0), *schemas[] = {&inner}, s = schema("+s", 0, schemas, 1);
    column.null_count = 1;
    expect("a null before the rows that are read", &s, &root, 0, 0, 0);
    column.null_count = 6;
    expect("as many nulls as there are rows that are not read", &s, &root, 0, 0, 0);
    column.null_count = 7;
    expect("one more", &s, &root, CODRASK_BAD_NULL_COUNT, 1, 0);
    root.offset = 0, column.null_count = 0;
    expect("no null, and one is read", &s, &root, CODRASK_BAD_NULL_COUNT, 1, 0);
    inner.flags = 0, column.null_count = -1;
    expect("a null that is read where none may be", &s, &root, CODRASK_UNEXPECTED_NULL, 1, 1);
    root.offset = 4;
    expect("a null that is not read where none may be", &s, &root, 0, 0, 0);
}

/* Nullable is what the schema says: batches with nulls and without are of one type. */
static void nullable(void) {
    static const uint32_t wanted[] = {CODRASK_NON_NULLABLE, CODRASK_NON_NULLABLE, CODRASK_ALL_VALID,
                                      CODRASK_BY_ARRAY,     CODRASK_ALL_VALID,    CODRASK_ALL_VALID};
    for (size_t i = 0; i < COUNT(wanted); i++) {
        const void *buffers[] = {i % 2 ? all_valid : NULL, numbers};
        struct ArrowSchema s = schema("l", i < 2 ? 0 : ARROW_FLAG_NULLABLE, NULL, 0), written_schema;
        struct ArrowArray a = array(9, 0, buffers, 2, NULL, 0), written;
        struct codrask_table table = {NULL, 0, NULL};
        struct codrask_fault fault;
        a.null_count = i < 4 ? -1 : 0;
        bool good = !codrask_table_from_arrow(&s, &a, &table) && table.nodes[0].validity == wanted[i]
                    && !codrask_to_arrow(table.nodes, table.count, CODRASK_BY_VIEWS, &written_schema, &written, &fault);
        tell("nullable is what the schema says", good && written_schema.flags == s.flags);
        if (good) {
            written_schema.release(&written_schema);
            written.release(&written);
        }
        codrask_table_free(&table);
    }
}

/* A column of so many levels, of lists of one row each. */
static void levels(void) {
    static struct ArrowSchema schemas[70], *schema_parts[70];
    static struct ArrowArray arrays[70], *parts[70];
    static const void *none[1], *flat[] = {NULL, numbers};
    for (size_t i = 0; i < 70; i++) {
        schemas[i] = schema("+w:1", 0, &schema_parts[i], 1), arrays[i] = array(1, 0, none, 1, &parts[i], 1);
        schema_parts[i] = &schemas[i + 1 < 70 ? i + 1 : 0], parts[i] = &arrays[i + 1 < 70 ? i + 1 : 0];
    }
    schemas[64] = schema("l", 0, NULL, 0), arrays[64] = array(1, 0, flat, 2, NULL, 0);
    expect("64 levels", &schemas[0], &arrays[0], 0, 0, 0);
    schemas[64] = schemas[63], arrays[64] = arrays[63], schema_parts[63] = &schemas[64], parts[63] = &arrays[64];
    schemas[64].children = &schema_parts[64], arrays[64].children = &parts[64];
    expect("more levels", &schemas[0], &arrays[0], CODRASK_TOO_DEEP, 65, 0);
    schema_parts[3] = &schemas[0], parts[3] = &arrays[0];
    expect("a column that has itself", &schemas[0], &arrays[0], CODRASK_TOO_DEEP, 65, 0);
}

/* The schema is given back when the table is made: its names are read no more. */
static void names(void) {
    make_records();
    char *name = malloc(9), *other = malloc(9);
    struct codrask_table table = {NULL, 0, NULL};
    struct codrask_fault fault;
    memcpy(name, "a column", 9), memcpy(other, "elements", 9);
    r.flat_schema.name = name, r.elements_schema.name = other;
    bool good = !codrask_table_from_arrow(&r.root_schema, &r.root, &table);
    memset(name, 0xff, 9), memset(other, 0xff, 9);
    free(name), free(other);
    memset(&r.root_schema, 0xff, sizeof r.root_schema);
    tell("names after the schema is gone",
         good && !codrask_check(table.nodes, table.count, &fault) && !memcmp(table.nodes[0].buffers[0].bytes, "a column", 8)
             && !memcmp(table.nodes[2].buffers[0].bytes, "elements", 8) && !strcmp(codrask_table_name(&table), "x"));
    codrask_table_free(&table);
    make_records();
}

int main(void) {
    released();
    counts();
    texts();
    part_of_texts();
    dictionaries();
    null_counts();
    null_counts_of_parts();
    nullable();
    levels();
    names();
    printf("%d passed, %d failed\n", passed, failed);
    return failed != 0;
}
