/* Columns whose values the layer has no type for: what the table has of them, as codrask.h tells it, and that they come out as they went
 * in, with their format, bytes and bitmap; and what is refused of them when they are read. The last line is 'N passed, M failed'. */
#include "carried_by_hand.h"

static struct codrask_table table;
static struct ArrowSchema written_schema;
static struct ArrowArray written;
static struct codrask_fault fault;

static uint32_t write_nodes(const struct codrask_node *nodes, size_t count, uint32_t flags) {
    return codrask_write_arrow(nodes, count, flags, "x", NULL, &written_schema, &written, &fault);
}

static void give_back(void) {
    if (written_schema.release)
        written_schema.release(&written_schema);
    if (written.release)
        written.release(&written);
}

/* ---- columns by themselves ---- */

/* Whether a node has no slice but those that are told, and these many rows. */
static bool is_node(const struct codrask_node *n, uint32_t kind, uint32_t validity, size_t length, const void *bytes, size_t count) {
    return n->kind == kind && n->validity == validity && n->length == length && n->byte_count == count && (!count || n->bytes == bytes);
}

/* Whether a node has records under the name of a format. */
static bool is_record(const struct codrask_node *n, uint32_t validity, size_t length, const char *format) {
    size_t size;
    const char *told = codrask_carried_format(n, &size);
    return n->kind == CODRASK_STRUCT && n->validity == validity && n->length == length && n->buffer_count == 1
           && n->buffers[0].count == strlen(format) + 1 && !n->buffers[0].bytes[0]
           && !memcmp(n->buffers[0].bytes + 1, format, strlen(format)) && codrask_is_carried(n) && size == strlen(format)
           && !memcmp(told, format, size);
}

/* Whether the table is that of a column: records, their nulls, and numbers or lists of bytes, over the bytes of the column itself. */
static bool is_table_of(const struct column *c, uint32_t validity) {
    static const uint32_t kinds[9] = {[1] = CODRASK_U8, [2] = CODRASK_U16, [4] = CODRASK_U32, [8] = CODRASK_U64};
    const struct codrask_node *n = table.nodes;
    size_t length = (size_t)c->array.length, size = length * c->width, nulls = validity == CODRASK_BY_ARRAY;
    const uint8_t *start = c->bytes + (size_t)c->array.offset * c->width;
    uint32_t kind = c->width < 9 ? kinds[c->width] : 0;
    if (table.count != 2 + nulls + !kind || !is_record(n++, validity, length, c->schema.format))
        return false;
    if (nulls && (n->kind != CODRASK_BOOL || n->validity || n->length != length || n++->offset != (size_t)c->array.offset % 8))
        return false;
    if (kind)
        return is_node(n, kind, 0, length, start, size);
    return is_node(n, CODRASK_FIXED_SIZE_LIST, 0, length, NULL, 0) && n->size == c->width
           && is_node(n + 1, CODRASK_U8, 0, size, start, size);
}

/* Whether what is written has the rows of a column: the same bits of validity, and the same bytes, also where a row is null. */
static bool has_rows_of(const struct column *c) {
    int64_t nulls = 0;
    const uint8_t *bits = written.buffers[0], *bytes = written.buffers[1];
    bool good = !strcmp(written_schema.format, c->schema.format) && written_schema.flags == c->schema.flags && written.n_buffers == 2
                && written.length == c->array.length && !written.n_children && !written.offset && !written_schema.metadata;
    for (int64_t i = 0; good && i < c->array.length; i++) {
        bool valid = is_valid(c, i);
        nulls += !valid;
        good = valid == (!bits || bits[i / 8] >> i % 8 & 1)
               && !memcmp(bytes + (size_t)i * c->width, c->bytes + (size_t)(c->array.offset + i) * c->width, c->width);
    }
    return good && written.null_count == nulls;
}

/* Reads a column, looks at its table, and writes it by these flags. */
static void there_and_back(const char *what, const struct column *c, uint32_t validity, uint32_t flags) {
    bool good = !codrask_read_arrow(&c->schema, &c->array, NULL, &table, &fault) && is_table_of(c, validity)
                && !codrask_check(table.nodes, table.count, &fault) && !write_nodes(table.nodes, table.count, flags) && has_rows_of(c);
    if (!good)
        printf("%s, %s of %zu bytes: %s at node %zu\n", what, c->schema.format, c->width, codrask_fault_name(fault.number), fault.node);
    tell(what, good);
    codrask_table_free(&table);
    give_back();
}

static void each_format(void) {
    for (size_t i = 0; i < COUNT(formats); i++)
        for (uint32_t flags = CODRASK_BY_VIEWS; flags <= CODRASK_BY_OFFSETS; flags++) {
            struct column c;
            make_column(&c, i, ROWS, BEFORE, true);
            there_and_back("nulls, at an offset", &c, CODRASK_BY_ARRAY, flags);
            c.array.null_count = (int64_t)nulls_of(&c);
            there_and_back("nulls that are counted", &c, CODRASK_BY_ARRAY, flags);
            c.buffers[0] = NULL, c.array.null_count = 0;
            there_and_back("no null", &c, CODRASK_ALL_VALID, flags);
            c.schema.flags = 0;
            there_and_back("no null that could be", &c, CODRASK_NON_NULLABLE, flags);
            c.array.length = c.array.offset = 0, c.buffers[1] = NULL;
            there_and_back("no rows, no buffers", &c, CODRASK_NON_NULLABLE, flags);
            free_column(&c);
        }
}

/* ---- columns in others ---- */

/* Whether what is read of an array is written with the same rows, names, flags and formats. */
static bool is_same(const struct ArrowSchema *schema, const struct ArrowArray *array, uint32_t flags) {
    struct sum sum = sum_of(schema, array), again = {0, false};
    uint32_t number = codrask_read_arrow(schema, array, NULL, &table, &fault);
    if (!number && !(number = write_nodes(table.nodes, table.count, flags)))
        again = sum_of(&written_schema, &written);
    if (number)
        printf("%s at node %zu, place %zu\n", codrask_fault_name(number), fault.node, fault.place);
    codrask_table_free(&table);
    give_back();
    return !number && again.seen == sum.seen;
}

static void expect_same(const char *what, const struct ArrowSchema *schema, const struct ArrowArray *array) {
    tell(what, is_same(schema, array, CODRASK_BY_VIEWS));
    tell(what, is_same(schema, array, CODRASK_BY_OFFSETS));
}

static void in_others(struct column *c) {
    static const uint8_t bits[] = {0x2d}, codes[] = {1, 9, 0, 2, 9, 1};
    static const int32_t offsets[] = {1, 2, 4, 4, 7}, starts[] = {5, 0, 2, 1}, sizes[] = {2, 1, 0, 3};
    const void *none_or_bits[] = {bits}, *lists[] = {bits, offsets}, *views[] = {bits, starts, sizes}, *coded[] = {bits, codes};
    struct ArrowSchema *schemas[] = {&c->schema, &c->schema};
    struct ArrowArray *parts[] = {&c->array, &c->array};
    struct ArrowSchema s = schema("+s", ARROW_FLAG_NULLABLE, schemas, 2);
    struct ArrowArray a = array(4, 1, none_or_bits, 1, parts, 2);
    expect_same("in records", &s, &a);
    s = schema("+l", ARROW_FLAG_NULLABLE, schemas, 1), a = array(3, 1, lists, 2, parts, 1);
    expect_same("in lists", &s, &a);
    s = schema("+w:2", ARROW_FLAG_NULLABLE, schemas, 1), a = array(3, 1, none_or_bits, 1, parts, 1);
    expect_same("in lists of one size", &s, &a);
    s = schema("+vl", ARROW_FLAG_NULLABLE, schemas, 1), a = array(4, 0, views, 3, parts, 1);
    tell("in list views", is_same(&s, &a, CODRASK_BY_VIEWS));
    s = schema("C", ARROW_FLAG_NULLABLE, NULL, 0), a = array(5, 0, coded, 2, NULL, 0);
    s.dictionary = &c->schema, a.dictionary = &c->array;
    expect_same("as the values of a dictionary", &s, &a);
    s.flags |= ARROW_FLAG_DICTIONARY_ORDERED;
    expect_same("as the values of a dictionary whose codes are ordered", &s, &a);
}

static void each_in_others(void) {
    for (size_t i = 0; i < COUNT(formats); i++) {
        struct column c;
        make_column(&c, i, ROWS, BEFORE, true);
        c.schema.name = "a name";
        in_others(&c);
        free_column(&c);
    }
}

/* A null may stand where the record or the list that it lies in is null; and nowhere else, where the schema says so. */
static void unexpected_nulls(void) {
    static const uint8_t bits[] = {0x0b}, inner[] = {0xf9};
    struct column c;
    const void *of_record[] = {bits};
    make_column(&c, 1, 4, 0, false);
    struct ArrowSchema *schemas[] = {&c.schema}, s = schema("+s", ARROW_FLAG_NULLABLE, schemas, 1);
    struct ArrowArray *parts[] = {&c.array}, a = array(4, 0, of_record, 1, parts, 1);
    c.buffers[0] = inner;
    expect("a null where none may be", &c.schema, &c.array, CODRASK_UNEXPECTED_NULL, 0, 1);
    expect("a null of a record that is not null", &s, &a, CODRASK_UNEXPECTED_NULL, 2, 1);
    c.buffers[0] = bits;
    expect("a null of a record that is", &s, &a, 0, 0, 0);
    c.schema.flags = ARROW_FLAG_NULLABLE, c.array.null_count = 2;
    expect("a null that is not there", &c.schema, &c.array, CODRASK_BAD_NULL_COUNT, 0, 0);
    c.buffers[1] = NULL, c.array.null_count = -1;
    expect("rows without a buffer", &c.schema, &c.array, CODRASK_LENGTH_MISMATCH, 2, 0);
    free_column(&c);
}

/* ---- what is none ---- */

static void other_formats(void) {
    static const char *const others[] = {"ee",
                                         "ff",
                                         "gg",
                                         "e:",
                                         "td",
                                         "tdX",
                                         "tdDD",
                                         "tdd",
                                         "tt",
                                         "ttS",
                                         "ttss",
                                         "ts",
                                         "tss",
                                         "tsx:",
                                         "tDx",
                                         "tD",
                                         "tDss",
                                         "ti",
                                         "tix",
                                         "tinn",
                                         "d",
                                         "d:",
                                         "d:5",
                                         "d:5,",
                                         "d:,2",
                                         "d:0,2",
                                         "d:39,2",
                                         "d:40,2",
                                         "d:5,x",
                                         "d:5,-",
                                         "d:5,2,",
                                         "d:5,2,8",
                                         "d:5,2,16",
                                         "d:10,2,32",
                                         "d:19,2,64",
                                         "d:39,2,128",
                                         "d:77,2,256",
                                         "d:5,2,257",
                                         "d:5,2,128,1",
                                         "d:-5,2",
                                         "d:5,2147483648",
                                         "w",
                                         "w:",
                                         "w:-1",
                                         "w:+1",
                                         "w: 1",
                                         "w:1 ",
                                         "w:2147483648",
                                         "w:18446744073709551617",
                                         "nn",
                                         "n:",
                                         "+mm",
                                         "+ms",
                                         "+m:",
                                         "+m sorted",
                                         "ordered",
                                         "+us:0",
                                         "+ud:0",
                                         "+r",
                                         "\1f"};
    struct column c;
    make_column(&c, 0, ROWS, BEFORE, true);
    for (size_t i = 0; i < COUNT(others); i++) {
        c.schema.format = others[i];
        expect(others[i], &c.schema, &c.array, CODRASK_BAD_ARROW, 0, 0);
    }
    free_column(&c);
    for (size_t i = 0; i < COUNT(formats); i++) {
        make_column(&c, i, ROWS, BEFORE, true);
        c.array.n_buffers = 3;
        expect("a buffer more", &c.schema, &c.array, CODRASK_BAD_ARROW, 0, 0);
        c.array.n_buffers = 2, c.schema.dictionary = &c.schema, c.array.dictionary = &c.array;
        expect("codes that are no integers", &c.schema, &c.array, CODRASK_BAD_ARROW, 0, 0);
        c.schema.dictionary = NULL, c.array.dictionary = NULL, c.array.length = INT64_MAX / 2, c.array.offset = INT64_MAX / 2;
        if (c.width > 2)
            expect("rows past all memory", &c.schema, &c.array, CODRASK_BAD_ARROW, 0, 0);
        free_column(&c);
    }
}

/* The greatest sizes that a format tells, over no rows. */
static void greatest_sizes(void) {
    static const char *const most[] = {"w:2147483647", "d:76,-2147483647,256", "d:38,2147483647"};
    for (size_t i = 0; i < COUNT(most); i++) {
        struct column c;
        make_column(&c, 0, 0, 0, true);
        c.schema.format = most[i];
        expect(most[i], &c.schema, &c.array, 0, 0, 0);
        expect_same(most[i], &c.schema, &c.array);
        free_column(&c);
    }
}

/* Formats and time zones stand in names, which are texts. */
static void zones(void) {
    static const char *const texts[] = {"tss:\xc3\xa9", "tss:\xc3", "tss:, \"a\" zone:"};
    for (size_t i = 0; i < COUNT(texts); i++) {
        struct column c;
        make_column(&c, 2, ROWS, BEFORE, true);
        c.schema.format = texts[i];
        expect(texts[i], &c.schema, &c.array, i == 1 ? CODRASK_NOT_UTF8 : 0, 0, 0);
        tell(texts[i], i == 1 || is_same(&c.schema, &c.array, CODRASK_BY_VIEWS));
        free_column(&c);
    }
}

/* ---- nulls ---- */

static void nulls(void) {
    struct ArrowSchema s = schema("n", ARROW_FLAG_NULLABLE, NULL, 0);
    struct ArrowArray a = array((int64_t)1 << 40, 7, NULL, 0, NULL, 0);
    size_t size;
    bool good = !codrask_read_arrow(&s, &a, NULL, &table, &fault) && table.count == 3
                && is_record(table.nodes, CODRASK_ALL_INVALID, (size_t)1 << 40, "n")
                && is_node(table.nodes + 1, CODRASK_FIXED_SIZE_LIST, 0, (size_t)1 << 40, NULL, 0) && table.nodes[1].size == 0
                && is_node(table.nodes + 2, CODRASK_U8, 0, 0, NULL, 0) && !codrask_carried_format(table.nodes + 1, &size);
    tell("2^40 nulls", good && !write_nodes(table.nodes, table.count, CODRASK_BY_VIEWS) && !strcmp(written_schema.format, "n")
                           && written.n_buffers == 0 && written.length == (int64_t)1 << 40 && written.null_count == written.length
                           && written_schema.flags == ARROW_FLAG_NULLABLE);
    codrask_table_free(&table);
    give_back();
    a.null_count = a.length;
    expect_same("nulls that are counted", &s, (a.length = a.null_count = 3, &a));
    static const int64_t others[] = {0, 1, 2, 4, INT64_MAX};
    for (size_t i = 0; i < COUNT(others); i++) {
        a.null_count = others[i];
        expect("nulls of another number", &s, &a, CODRASK_BAD_NULL_COUNT, 0, 0);
    }
    a.null_count = -2;
    expect("nulls of a negative number", &s, &a, CODRASK_BAD_ARROW, 0, 0);
    a.null_count = 3, s.flags = 0;
    expect("nulls where the schema lets no row be null", &s, &a, 0, 0, 0);
    const void *buffers[] = {NULL};
    a.buffers = buffers, a.n_buffers = 1;
    expect("nulls with a buffer", &s, &a, CODRASK_BAD_ARROW, 0, 0);
}

static void nulls_in_others(void) {
    static const uint8_t codes[] = {1, 0, 2};
    const void *no_bitmap[] = {NULL}, *coded[] = {NULL, codes};
    struct ArrowSchema none = schema("n", 0, NULL, 0), *schemas[] = {&none}, s = schema("+s", 0, schemas, 1);
    struct ArrowArray few = array(9, 1, NULL, 0, NULL, 0), *parts[] = {&few}, a = array(2, 3, no_bitmap, 1, parts, 1);
    few.null_count = 9;
    expect_same("nulls in records", &s, &a);
    s.format = "+w:2", a.offset = 2;
    expect_same("nulls in lists of one size", &s, &a);
    s = schema("C", 0, NULL, 0), a = array(3, 0, coded, 2, NULL, 0), s.dictionary = &none, a.dictionary = &few;
    expect_same("nulls as the values of a dictionary", &s, &a);
}

/* ---- maps ---- */

/* Maps of letters and floats: null, two, none, one, from the second row of five on. */
struct map {
    const void *buffers[2], *no_bitmap[1], *keys[2], *values[2];
    struct ArrowSchema key, value, *pair[2], entry, *entry_schema[1], schema;
    struct ArrowArray key_array, value_array, *pair_arrays[2], entry_array, *entry_arrays[1], array;
};

static struct map map;

static void make_map(void) {
    static const int32_t offsets[] = {0, 1, 3, 5, 5, 6};
    static const uint8_t bits[] = {0x1d}, keys[] = "_abcdefg", valid[] = {0xf5};
    static const float floats[] = {0, 1, 2, 3, 4, 5, 6, 7};
    map = (struct map){.buffers = {bits, offsets}, .no_bitmap = {NULL}, .keys = {NULL, keys}, .values = {valid, floats}};
    map.key = schema("C", 0, NULL, 0), map.value = schema("f", ARROW_FLAG_NULLABLE, NULL, 0);
    map.key.name = "key", map.value.name = "value";
    map.key_array = array(8, 0, map.keys, 2, NULL, 0), map.value_array = array(8, 0, map.values, 2, NULL, 0);
    map.pair[0] = &map.key, map.pair[1] = &map.value, map.pair_arrays[0] = &map.key_array, map.pair_arrays[1] = &map.value_array;
    map.entry = schema("+s", 0, map.pair, 2), map.entry.name = "entries";
    map.entry_array = array(7, 1, map.no_bitmap, 1, map.pair_arrays, 2);
    map.entry_schema[0] = &map.entry, map.entry_arrays[0] = &map.entry_array;
    map.schema = schema("+m", ARROW_FLAG_NULLABLE, map.entry_schema, 1), map.array = array(4, 1, map.buffers, 2, map.entry_arrays, 1);
}

static void refuse_map(const char *what, uint32_t number, size_t node, size_t place) {
    expect(what, &map.schema, &map.array, number, node, place);
    make_map();
}

static void maps(void) {
    make_map();
    bool good = !codrask_read_arrow(&map.schema, &map.array, NULL, &table, &fault) && table.count == 10
                && is_record(table.nodes, CODRASK_BY_ARRAY, 4, "+m") && is_node(table.nodes + 2, CODRASK_LIST_VIEW, 0, 4, NULL, 0)
                && table.nodes[3].kind == CODRASK_STRUCT && table.nodes[3].buffer_count == 2 && table.nodes[3].length == 5
                && is_record(table.nodes + 5, CODRASK_BY_ARRAY, 5, "f");
    tell("the table of maps", good);
    tell("maps by views", good && !write_nodes(table.nodes, table.count, CODRASK_BY_VIEWS) && !strcmp(written_schema.format, "+m")
                              && written.n_buffers == 2 && !strcmp(written_schema.children[0]->name, "entries"));
    codrask_table_free(&table);
    give_back();
    expect_same("maps", &map.schema, &map.array);
    map.schema.flags |= ARROW_FLAG_MAP_KEYS_SORTED;
    expect_same("maps whose keys are sorted", &map.schema, &map.array);
    good = !codrask_read_arrow(&map.schema, &map.array, NULL, &table, &fault) && is_record(table.nodes, CODRASK_BY_ARRAY, 4, "+m sorted");
    tell("and so they are called", good);
    codrask_table_free(&table);
    make_map();
    map.array.length = map.array.offset = 0, map.buffers[1] = NULL;
    expect_same("no maps", &map.schema, &map.array);
    make_map();
    map.entry.flags = map.key.flags = ARROW_FLAG_NULLABLE, map.no_bitmap[0] = map.keys[0] = map.buffers[0];
    expect_same("entries and keys that are null", &map.schema, &map.array);
}

static void lies_of_maps(void) {
    static char name[(4 << 20) + 1];
    int32_t falling[] = {0, 1, 3, 2, 5, 6}, past[] = {0, 1, 3, 5, 5, 60};
    make_map();
    map.entry.n_children = map.entry_array.n_children = 1;
    refuse_map("entries of one column", CODRASK_BAD_ARROW, 0, 0);
    map.entry.format = "+w:1", map.entry.n_children = map.entry_array.n_children = 1;
    refuse_map("entries that are lists", CODRASK_BAD_ARROW, 0, 0);
    map.entry_schema[0] = &map.key, map.entry_arrays[0] = &map.key_array;
    refuse_map("entries that are numbers", CODRASK_BAD_ARROW, 0, 0);
    map.entry.release = NULL, map.entry.format = NULL;
    refuse_map("entries that were taken out", CODRASK_RELEASED, 3, 0);
    map.entry.format = NULL;
    refuse_map("entries without a format", CODRASK_BAD_ARROW, 0, 0);
    map.entry_array.n_children = 3;
    refuse_map("entries of two columns and of three", CODRASK_BAD_ARROW, 3, 0);
    map.schema.n_children = map.array.n_children = 0;
    refuse_map("maps without entries", CODRASK_BAD_ARROW, 0, 0);
    map.array.n_buffers = 3;
    refuse_map("maps with a buffer more", CODRASK_BAD_ARROW, 0, 0);
    map.array.length = INT64_MAX / 2;
    refuse_map("maps past all memory", CODRASK_BAD_ARROW, 0, 0);
    memset(name, 'x', sizeof name - 1);
    map.entry.name = name;
    refuse_map("entries whose name is too long", CODRASK_TOO_MANY_BYTES, 0, 0);
    map.buffers[1] = falling;
    refuse_map("an offset that falls", CODRASK_NEGATIVE, 2, 1);
    map.buffers[1] = past;
    refuse_map("an offset past the entries", CODRASK_OUT_OF_BOUNDS, 2, 60);
    map.schema.flags = 0;
    refuse_map("a null where none may be", CODRASK_UNEXPECTED_NULL, 0, 0);
    map.array.null_count = 2;
    refuse_map("a null that is not there", CODRASK_BAD_NULL_COUNT, 0, 0);
}

/* ---- extensions ---- */

static char metadata[400];

/* Metadata of so many texts, of which each second one is a value. */
static const char *metadata_of(const char *const *texts, int32_t count) {
    char *at = metadata + 4;
    const int32_t keys = count / 2;
    memcpy(metadata, &keys, 4);
    for (int32_t i = 0; i < count; i++) {
        const int32_t size = (int32_t)strlen(texts[i]);
        memcpy(at, &size, 4);
        memcpy(at + 4, texts[i], (size_t)size);
        at += 4 + size;
    }
    return metadata;
}

/* Whether the first node has a name of these bytes. */
static bool is_named(const struct ArrowSchema *schema, const struct ArrowArray *array, const char *name, size_t size) {
    bool good = !codrask_read_arrow(schema, array, NULL, &table, &fault) && codrask_is_carried(table.nodes)
                && table.nodes[0].buffers[0].count == size && !memcmp(table.nodes[0].buffers[0].bytes, name, size);
    codrask_table_free(&table);
    return good;
}

#define NAME(text) (text), sizeof(text) - 1

static const char *const told[] = {"other", "thing", "ARROW:extension:name", "an.ext", "ARROW:extension:metadata", "{}"};

static void extensions_of_carried(void) {
    static const char *const second[] = {"ARROW:extension:name", "", "ARROW:extension:name", "two"}, *const bare[] = {
                                                                                                         "ARROW:extension:metadata", "x"};
    struct column c;
    make_column(&c, 0, ROWS, BEFORE, true);
    c.schema.format = "e", c.schema.metadata = metadata_of(told, 6);
    tell("a name with an extension", is_named(&c.schema, &c.array, NAME("\0e\0an.ext\0{}")));
    expect_same("floats with an extension", &c.schema, &c.array);
    tell("other keys are dropped", !codrask_read_arrow(&c.schema, &c.array, NULL, &table, &fault)
                                       && !write_nodes(table.nodes, table.count, 0)
                                       && !memcmp(written_schema.metadata, metadata_of(told + 2, 4), 66));
    codrask_table_free(&table);
    give_back();
    c.schema.metadata = metadata_of(told + 2, 2);
    tell("an extension without metadata", is_named(&c.schema, &c.array, NAME("\0e\0an.ext")));
    expect_same("floats with an extension that has no metadata", &c.schema, &c.array);
    c.schema.metadata = metadata_of(second, 4);
    tell("the first of two extensions, without a name", is_named(&c.schema, &c.array, NAME("\0e\0")));
    expect_same("floats with an extension that has no name", &c.schema, &c.array);
    c.schema.metadata = metadata_of(bare, 2);
    tell("metadata of no extension", is_named(&c.schema, &c.array, NAME("\0e")));
    c.schema.metadata = metadata_of(told, 2);
    tell("other keys alone", is_named(&c.schema, &c.array, NAME("\0e")));
    c.schema.metadata = metadata_of(told, 0);
    tell("no keys", is_named(&c.schema, &c.array, NAME("\0e")));
    free_column(&c);
    make_map();
    map.schema.metadata = metadata_of(told, 6), map.schema.flags |= ARROW_FLAG_MAP_KEYS_SORTED;
    tell("maps", is_named(&map.schema, &map.array, NAME("\0+m sorted\0an.ext\0{}")));
    expect_same("maps with an extension", &map.schema, &map.array);
    make_map();
    map.entry.metadata = metadata;
    expect_same("maps whose entries have an extension", &map.schema, &map.array);
}

/* Of a type that the layer has: a record that is never null, over the column as it is without the extension. */
static void extensions_of_others(void) {
    static const uint8_t bits[] = {0x35}, codes[] = {1, 0, 0, 1, 0, 1};
    static const int32_t ends[] = {0, 14, 3, 5, 14, 20};
    static const int64_t numbers[] = {5, 6, 7, 8, 9, 10};
    const void *flat[] = {bits, numbers}, *text[] = {bits, ends, "abcdefghijklmnopqrst"}, *coded[] = {bits, codes}, *no_bitmap[] = {bits};
    struct ArrowSchema s = schema("l", ARROW_FLAG_NULLABLE, NULL, 0), number = schema("l", 0, NULL, 0), *schemas[] = {&number, &number};
    struct ArrowArray a = array(5, 1, flat, 2, NULL, 0), whole = array(6, 0, flat, 2, NULL, 0), *parts[] = {&whole, &whole};
    s.metadata = metadata_of(told, 6);
    tell("integers with an extension", is_named(&s, &a, NAME("\0\0an.ext\0{}")));
    expect_same("integers with an extension", &s, &a);
    s.format = "z", a = array(5, 0, text, 3, NULL, 0);
    expect_same("byte lists with an extension, and a null row whose offset falls", &s, &a);
    whole.buffers = (flat[0] = NULL, flat), whole.null_count = 0;
    s = schema("+s", ARROW_FLAG_NULLABLE, schemas, 2), a = array(4, 1, no_bitmap, 1, parts, 2), s.metadata = metadata;
    expect_same("records with an extension", &s, &a);
    s = schema("+w:1", ARROW_FLAG_NULLABLE, schemas, 1), a = array(4, 1, no_bitmap, 1, parts, 1), s.metadata = metadata;
    expect_same("lists with an extension", &s, &a);
    s = schema("C", ARROW_FLAG_NULLABLE, NULL, 0), a = array(5, 1, coded, 2, NULL, 0);
    s.dictionary = &number, a.dictionary = &whole, s.metadata = metadata;
    tell("a dictionary with an extension", is_named(&s, &a, NAME("\0\0an.ext\0{}")));
    expect_same("a dictionary with an extension", &s, &a);
    s.flags |= ARROW_FLAG_DICTIONARY_ORDERED, number.metadata = metadata;
    tell("a dictionary whose codes are ordered", is_named(&s, &a, NAME("\0ordered\0an.ext\0{}")));
    expect_same("and both", &s, &a);
}

/* A null is told of the array itself, and what its structs say of the record over it. */
static void nodes_of_extensions(void) {
    static const uint8_t bits[] = {0xfd};
    static const int64_t numbers[] = {5, 6, 7};
    const void *flat[] = {bits, numbers};
    struct ArrowSchema s = schema("l", 0, NULL, 0);
    struct ArrowArray a = array(3, 0, flat, 2, NULL, 0);
    s.metadata = metadata_of(told, 6);
    expect("a null where none may be", &s, &a, CODRASK_UNEXPECTED_NULL, 1, 1);
    a.null_count = 2;
    expect("a null count", &s, &a, CODRASK_BAD_NULL_COUNT, 1, 0);
    a.length = INT64_MAX / 2;
    expect("rows past all memory", &s, &a, CODRASK_BAD_ARROW, 1, 0);
    a.length = -1;
    expect("a negative length", &s, &a, CODRASK_BAD_ARROW, 0, 0);
    s.format = "+r";
    expect("an extension of what is not carried", &s, &a, CODRASK_BAD_ARROW, 0, 0);
}

static void lies_of_metadata(void) {
    static const int64_t numbers[] = {5, 6, 7};
    static const int32_t less = -1;
    static const size_t sizes[] = {0, 4, 8 + 20, 8 + 20 + 4 + 6, 8 + 20 + 4 + 6 + 4 + 24};
    const void *flat[] = {NULL, numbers};
    struct ArrowSchema s = schema("l", 0, NULL, 0), *schemas[] = {&s}, root = schema("+s", 0, schemas, 1);
    struct ArrowArray a = array(3, 0, flat, 2, NULL, 0), *parts[] = {&a}, root_array = array(3, 0, flat, 1, parts, 1);
    for (size_t i = 0; i < COUNT(sizes); i++) {
        s.metadata = metadata_of(told + 2, 4);
        memcpy(metadata + sizes[i], &less, 4);
        expect("a negative size", &root, &root_array, CODRASK_BAD_ARROW, 1, 0);
    }
    metadata_of(told + 2, 4);
    metadata[8 + 20 + 4 + 2] = 0;
    expect("a name with a byte 0", &root, &root_array, CODRASK_BAD_ARROW, 1, 0);
    metadata[8 + 20 + 4 + 2] = (char)0xff;
    expect("a name that is no text", &root, &root_array, CODRASK_NOT_UTF8, 1, 0);
    metadata_of(told + 2, 4);
    metadata[8 + 20 + 4 + 6 + 4 + 24 + 4] = 0;
    tell("metadata with a byte 0", is_named(&s, &a, NAME("\0\0an.ext\0\0}")));
    expect_same("metadata with a byte 0", &s, &a);
}

/* Keys have a limit of their own, and so have names. */
static void many_keys(void) {
    static int32_t keys[2 * 1048577 + 1];
    static char zone[(4 << 20) + 1] = "tss:";
    static const int64_t numbers[] = {5, 6, 7};
    const void *flat[] = {NULL, numbers};
    struct ArrowSchema s = schema("l", 0, NULL, 0), *schemas[] = {&s, &s}, root = schema("+s", 0, schemas, 2);
    struct ArrowArray a = array(3, 0, flat, 2, NULL, 0), *parts[] = {&a, &a}, root_array = array(3, 0, flat, 1, parts, 2);
    s.metadata = (const char *)keys;
    keys[0] = 1 << 19;
    expect("2^20 keys of two columns", &root, &root_array, 0, 0, 0);
    keys[0]++;
    expect("and two more", &root, &root_array, CODRASK_TOO_MANY_BYTES, 2, 0);
    keys[0] = INT32_MAX;
    expect("as many as can be told", &s, &a, CODRASK_TOO_MANY_BYTES, 0, 0);
    memset(zone + 4, 'x', sizeof zone - 6);
    s.metadata = NULL, s.format = zone, s.name = "";
    expect("a time zone of nearly 4 MiB", &s, &a, 0, 0, 0);
    root.n_children = root_array.n_children = 1, s.name = "xy";
    expect("a name of two bytes more", &root, &root_array, CODRASK_TOO_MANY_BYTES, 1, 0);
}

int main(void) {
    each_format();
    each_in_others();
    unexpected_nulls();
    other_formats();
    greatest_sizes();
    zones();
    nulls();
    nulls_in_others();
    maps();
    lies_of_maps();
    extensions_of_carried();
    extensions_of_others();
    nodes_of_extensions();
    lies_of_metadata();
    many_keys();
    printf("%d passed, %d failed\n", passed, failed);
    return failed != 0;
}
