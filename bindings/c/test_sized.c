/* Arrow arrays that are read with the lengths of their buffers, each in a block of just its length: every format by hand, then random
 * structures, of which each buffer gets a byte less than its rows need, then as many, then more; and structures that tell of more than
 * there is. Run it under the sanitizers, with a number of seeds, or none for 10000. The last line is 'N passed, M failed'. */
#include "needs.h"
#include "sized.h"
#include "turned_structures.h"

/* ---- buffers in blocks of their length ---- */

/* A buffer that was put into a block of its own. */
struct lent {
    const void **place, *before;
    void *block;
};

/* The first bytes of a buffer in a block of another size. */
static struct lent lend(const void **place, size_t before, size_t size) {
    struct lent lent = {place, *place, malloc(size)};
    if (size && !lent.block)
        abort();
    if (size)
        memset(lent.block, 0xa5, size);
    if (least(before, size))
        memcpy(lent.block, *place, least(before, size));
    *place = lent.block;
    return lent;
}

static void give_back(struct lent lent) {
    *lent.place = lent.before;
    free(lent.block);
}

/* What is written of a table, read by Arrow's rules. */
static uint64_t rows_of_table(const struct codrask_table *table) {
    struct ArrowSchema schema;
    struct ArrowArray array;
    struct codrask_fault fault;
    if (codrask_to_arrow(table->nodes, table->count, CODRASK_BY_VIEWS, &schema, &array, &fault))
        abort();
    uint64_t rows = sum_of(&schema, &array).seen;
    schema.release(&schema);
    array.release(&array);
    return rows;
}

static bool has_same_rows(const struct codrask_table *one, const struct codrask_table *other) {
    return rows_of_table(one) == rows_of_table(other);
}

static struct codrask_fault check_sized(const struct ArrowSchema *schema, const struct ArrowArray *array, const size_t *lengths,
                                        size_t count) {
    struct codrask_fault fault;
    uint32_t number = codrask_check_arrow_sized(schema, array, lengths, count, &fault);
    return number == fault.number ? fault : (struct codrask_fault){UINT32_MAX, 0, 0};
}

/* ---- every format, by hand ---- */

/* How long a buffer is, and what is told where it has a byte less. */
struct length {
    size_t bytes;
    uint32_t number;
    size_t node, place;
};

enum { SHORT = CODRASK_SHORT_BUFFER, MOST_LENGTHS = 16 };

struct by_hand {
    const struct length *each;
    size_t count, next, told[MOST_LENGTHS];
    struct lent lent[MOST_LENGTHS];
};

/* Puts each buffer of an array and of all below it into a block of the length that is told. */
static void lend_all(struct by_hand *h, struct ArrowArray *array) {
    for (int64_t i = 0; i < array->n_buffers; i++, h->next++)
        h->lent[h->next] = array->buffers[i] ? lend(&array->buffers[i], h->each[h->next].bytes, h->told[h->next]) : (struct lent){0};
    for (int64_t i = 0; i < array->n_children; i++)
        lend_all(h, array->children[i]);
    if (array->dictionary)
        lend_all(h, array->dictionary);
}

static void give_all_back(struct by_hand *h) {
    for (size_t i = h->next; i-- > 0;)
        if (h->lent[i].place)
            give_back(h->lent[i]);
}

/* What is told of an array where buffer `turned` has so many bytes in place of its own. */
static bool is_told_by_hand(struct by_hand *h, const struct ArrowSchema *schema, struct ArrowArray *array, size_t turned, size_t bytes,
                            const struct codrask_table *wanted) {
    const struct length *length = &h->each[turned];
    struct codrask_fault fault = bytes < length->bytes ? (struct codrask_fault){length->number, length->node, length->place} : no_fault;
    for (size_t i = 0; i < h->count; i++)
        h->told[i] = h->each[i].bytes;
    h->told[turned] = bytes;
    h->next = 0;
    lend_all(h, array);
    struct codrask_reading how = {.lengths = h->told, .length_count = h->count};
    bool good = is_told(schema, array, how, is_same_table, wanted, fault);
    struct codrask_fault checked;
    uint32_t number = codrask_check_arrow_sized(schema, array, h->told, h->count, &checked);
    give_all_back(h);
    return good && number == fault.number && is_same_fault(checked, fault);
}

/* The array by its lengths, by one that is longer, and by each that is a byte less. */
static void by_hand(const char *what, const struct ArrowSchema *schema, struct ArrowArray *array, const struct length *each, size_t count) {
    struct by_hand h = {.each = each, .count = count};
    struct codrask_table wanted;
    if (codrask_table_from_arrow(schema, array, &wanted)) {
        tell(what, false);
        return;
    }
    for (size_t i = 0; i < count; i++) {
        bool good = is_told_by_hand(&h, schema, array, i, each[i].bytes, &wanted);
        if (each[i].bytes)
            good = good && is_told_by_hand(&h, schema, array, i, each[i].bytes - 1, &wanted)
                   && is_told_by_hand(&h, schema, array, i, each[i].bytes + 9, &wanted);
        tell(what, good);
    }
    codrask_table_free(&wanted);
}

#define BY_HAND(what, schema, array, ...)                                                                                                  \
    by_hand(what, schema, array, (const struct length[]){__VA_ARGS__}, COUNT(((const struct length[]){__VA_ARGS__})))

static const uint8_t some_valid[] = {0xfb, 0xff};
static const int64_t numbers[] = {1, 2, 3, 4, 5, 6, 7, 8, 9, 10, 11, 12, 13, 14, 15, 16, 17, 18, 19, 20};

/* Three rows from the third one on, the first of them null. */
static void flat_by_hand(void) {
    static const struct {
        const char *format;
        size_t bytes;
    } formats[] = {{"b", 1},     {"c", 5},     {"C", 5},    {"s", 10},        {"S", 10},         {"i", 20},     {"I", 20},
                   {"l", 40},    {"L", 40},    {"tdD", 20}, {"tdm", 40},      {"tts", 20},       {"ttm", 20},   {"ttu", 40},
                   {"ttn", 40},  {"tDs", 40},  {"tDm", 40}, {"tDu", 40},      {"tDn", 40},       {"tss:", 40},  {"tsm:UTC", 40},
                   {"tsu:", 40}, {"tsn:", 40}, {"e", 10},   {"f", 20},        {"g", 40},         {"tiM", 20},   {"tiD", 40},
                   {"tin", 80},  {"w:1", 5},   {"w:3", 15}, {"d:9,2,32", 20}, {"d:18,2,64", 40}, {"d:38,2", 80}};
    for (size_t i = 0; i < COUNT(formats); i++) {
        const void *buffers[] = {some_valid, numbers};
        struct ArrowSchema s = schema(formats[i].format, ARROW_FLAG_NULLABLE, NULL, 0);
        struct ArrowArray a = array(3, 2, buffers, 2, NULL, 0);
        BY_HAND(s.format, &s, &a, {1, SHORT, 0, 0}, {formats[i].bytes, SHORT, 0, 1});
        a.length = 7;
        const size_t bytes = formats[i].bytes == 1 ? 2 : formats[i].bytes / 5 * 9;
        BY_HAND(s.format, &s, &a, {2, SHORT, 0, 0}, {bytes, SHORT, 0, 1});
        a.length = 0, a.offset = 9;
        BY_HAND("no rows", &s, &a, {0}, {0});
    }
}

static void texts_by_hand(void) {
    const char heap[] = "abca longer text.";
    const int32_t offsets[] = {0, 0, 0, 3, 16, 17};
    const int64_t large[] = {0, 0, 0, 3, 16, 17};
    const char *const formats[] = {"u", "z", "U", "Z"};
    for (size_t i = 0; i < COUNT(formats); i++) {
        const void *buffers[] = {some_valid, i < 2 ? (const void *)offsets : large, heap};
        const size_t width = i < 2 ? 4 : 8;
        struct ArrowSchema s = schema(formats[i], ARROW_FLAG_NULLABLE, NULL, 0);
        struct ArrowArray a = array(3, 2, buffers, 3, NULL, 0);
        BY_HAND(s.format, &s, &a, {1, SHORT, 0, 0}, {6 * width, SHORT, 0, 1}, {17, CODRASK_BAD_START, 0, 2});
        a.length = 2;
        BY_HAND(s.format, &s, &a, {1, SHORT, 0, 0}, {5 * width, SHORT, 0, 1}, {16, CODRASK_BAD_END, 0, 1});
        a.length = 1, buffers[0] = NULL;
        BY_HAND(s.format, &s, &a, {0}, {4 * width, SHORT, 0, 1}, {3, CODRASK_BAD_END, 0, 0});
        a.length = 0;
        BY_HAND("no texts", &s, &a, {0}, {0}, {0});
    }
}

static void views_by_hand(void) {
    const struct {
        int32_t size;
        char prefix[4];
        int32_t block, start;
    } views[] = {{0}, {0}, {3, "abc", 0, 0}, {13, "a lo", 1, 2}, {13, "lett", 0, 1}};
    const int64_t sizes[] = {14, 15};
    const char *const formats[] = {"vu", "vz"};
    for (size_t i = 0; i < COUNT(formats); i++) {
        const void *buffers[] = {some_valid, views, "_letters, many", "..a longer text", sizes};
        struct ArrowSchema s = schema(formats[i], ARROW_FLAG_NULLABLE, NULL, 0);
        struct ArrowArray a = array(3, 2, buffers, 5, NULL, 0);
        BY_HAND(s.format, &s, &a, {1, SHORT, 0, 0}, {80, SHORT, 0, 1}, {14, SHORT, 0, 2}, {15, SHORT, 0, 3}, {16, SHORT, 0, 4});
        const void *none[] = {NULL, views, NULL};
        struct ArrowArray few = array(1, 2, none, 3, NULL, 0);
        BY_HAND("views without buffers", &s, &few, {0}, {48, SHORT, 0, 1}, {0});
    }
}

static void lists_by_hand(void) {
    const int32_t offsets[] = {1, 1, 1, 3, 3, 7}, sizes[] = {0, 0, 2, 4, 1};
    const int64_t large[] = {1, 1, 1, 3, 3, 7}, large_sizes[] = {0, 0, 2, 4, 1};
    const char *const formats[] = {"+l", "+L", "+vl", "+vL"};
    for (size_t i = 0; i < COUNT(formats); i++) {
        const void *inner[] = {some_valid, numbers},
                   *buffers[] = {some_valid, i % 2 ? (const void *)large : offsets, i % 2 ? (const void *)large_sizes : sizes};
        const size_t width = i % 2 ? 8 : 4;
        struct ArrowArray items = array(9, 0, inner, 2, NULL, 0), *parts[] = {&items}, a = array(3, 2, buffers, i < 2 ? 2 : 3, parts, 1);
        struct ArrowSchema item = schema("s", ARROW_FLAG_NULLABLE, NULL, 0), *schemas[] = {&item};
        struct ArrowSchema s = schema(formats[i], ARROW_FLAG_NULLABLE, schemas, 1);
        if (i < 2)
            BY_HAND(s.format, &s, &a, {1, SHORT, 0, 0}, {6 * width, SHORT, 0, 1}, {1, SHORT, 2, 0}, {14, SHORT, 2, 1});
        else
            BY_HAND(s.format, &s, &a, {1, SHORT, 0, 0}, {5 * width, SHORT, 0, 1}, {5 * width, SHORT, 0, 2}, {2, SHORT, 2, 0},
                    {18, SHORT, 2, 1});
    }
}

/* Maps, whose list views stand behind the records that carry them; and what has no bytes. */
static void carried_by_hand(void) {
    const int32_t offsets[] = {1, 1, 1, 3, 3, 7};
    const void *none[] = {NULL}, *key_buffers[] = {NULL, numbers}, *value_buffers[] = {NULL, numbers}, *buffers[] = {some_valid, offsets};
    struct ArrowArray keys = array(9, 0, key_buffers, 2, NULL, 0), values = array(9, 0, value_buffers, 2, NULL, 0);
    struct ArrowArray *pair[] = {&keys, &values}, entries = array(9, 0, none, 1, pair, 2);
    struct ArrowArray *parts[] = {&entries}, a = array(3, 2, buffers, 2, parts, 1);
    struct ArrowSchema key = schema("s", 0, NULL, 0), value = schema("g", ARROW_FLAG_NULLABLE, NULL, 0), *both[] = {&key, &value};
    struct ArrowSchema entry = schema("+s", 0, both, 2), *schemas[] = {&entry}, s = schema("+m", ARROW_FLAG_NULLABLE, schemas, 1);
    BY_HAND("a map", &s, &a, {1, SHORT, 0, 0}, {24, SHORT, 0, 1}, {0}, {0}, {14, SHORT, 4, 1}, {0}, {56, SHORT, 5, 1});
    const void *empty[] = {some_valid, numbers};
    struct ArrowArray few = array(3, 2, empty, 2, NULL, 0), nulls = array(3, 2, NULL, 0, NULL, 0);
    struct ArrowSchema width_0 = schema("w:0", ARROW_FLAG_NULLABLE, NULL, 0), null = schema("n", 0, NULL, 0);
    BY_HAND("values of no byte", &width_0, &few, {1, SHORT, 0, 0}, {0});
    expect_fault("nulls", check_sized(&null, &nulls, NULL, 0), 0, 0, 0);
}

/* Records of lists of one size, and of a dictionary; from the second record on, of four. */
static void records_by_hand(void) {
    const uint8_t codes[] = {0, 1, 1, 0};
    const int32_t offsets[] = {2, 4, 5};
    const void *fixed_buffers[] = {some_valid}, *item_buffers[] = {NULL, numbers}, *code_buffers[] = {some_valid, codes},
               *value_buffers[] = {some_valid, offsets, "..abc"}, *root_buffers[] = {some_valid};
    struct ArrowArray item = array(9, 1, item_buffers, 2, NULL, 0), *items[] = {&item}, fixed = array(4, 0, fixed_buffers, 1, items, 1);
    struct ArrowArray values = array(2, 0, value_buffers, 3, NULL, 0), coded = array(4, 0, code_buffers, 2, NULL, 0);
    struct ArrowArray *parts[] = {&fixed, &coded}, root = array(3, 1, root_buffers, 1, parts, 2);
    struct ArrowSchema item_schema = schema("l", 0, NULL, 0), *item_schemas[] = {&item_schema};
    struct ArrowSchema fixed_schema = schema("+w:2", 0, item_schemas, 1), value = schema("u", 0, NULL, 0);
    struct ArrowSchema coded_schema = schema("C", ARROW_FLAG_NULLABLE, NULL, 0), *schemas[] = {&fixed_schema, &coded_schema};
    struct ArrowSchema s = schema("+s", ARROW_FLAG_NULLABLE, schemas, 2);
    coded.dictionary = &values, coded_schema.dictionary = &value;
    BY_HAND("records", &s, &root, {1, SHORT, 0, 0}, {1, SHORT, 2, 0}, {0}, {72, SHORT, 3, 1}, {1, SHORT, 5, 0}, {4, SHORT, 5, 1},
            {1, SHORT, 7, 0}, {12, SHORT, 7, 1}, {5, CODRASK_BAD_START, 7, 1});
}

/* ---- texts that pass their heap ---- */

/* The same, with each buffer in a block of its length. */
static struct codrask_fault check_exact(const struct ArrowSchema *schema, struct ArrowArray *array, const size_t *lengths, size_t count) {
    struct length each[MOST_LENGTHS];
    struct by_hand h = {.each = each, .count = count};
    for (size_t i = 0; i < count; i++)
        each[i].bytes = h.told[i] = lengths[i];
    lend_all(&h, array);
    struct codrask_fault fault = check_sized(schema, array, lengths, count);
    give_all_back(&h);
    return fault;
}

/* Texts over three bytes, whose offsets tell of more. */
static void texts_past(void) {
    static const struct {
        int32_t offsets[5];
        int64_t length;
        uint32_t number;
        size_t place;
    } all[] = {
        {{0, 3, 9}, 2, CODRASK_BAD_START, 1},       {{0, 2, 9}, 2, CODRASK_BAD_END, 1},
        {{0, 2, INT32_MAX}, 2, CODRASK_BAD_END, 1}, {{0, 3, 3, 3}, 3, 0, 0},
        {{0, 3, 4, 4}, 3, CODRASK_BAD_START, 1},    {{4, 4}, 1, CODRASK_BAD_START, 0},
        {{5, 9}, 1, CODRASK_BAD_START, 0},          {{0, 9, 2}, 2, CODRASK_BAD_END, 0},
        {{9, 5}, 1, CODRASK_BAD_BUFFER, 0},         {{0, 2, 1}, 2, CODRASK_BAD_BUFFER, 0},
        {{-1, 2, 3}, 2, CODRASK_BAD_BUFFER, 0},     {{-9, 9}, 1, CODRASK_BAD_BUFFER, 0},
        {{0, 2, -1}, 2, CODRASK_BAD_BUFFER, 0},     {{0, 1, 9, 2, 3}, 4, CODRASK_BAD_END, 1},
        {{0, 1, 0, 9}, 3, CODRASK_BAD_BUFFER, 1},
    };
    static const char *const formats[] = {"u", "z"};
    for (size_t i = 0; i < COUNT(all); i++) {
        const void *buffers[] = {NULL, all[i].offsets, "abc"};
        struct ArrowSchema s = schema(formats[i % 2], 0, NULL, 0);
        struct ArrowArray a = array(all[i].length, 0, buffers, 3, NULL, 0);
        const size_t lengths[] = {0, 4 * (size_t)all[i].length + 4, 3};
        expect_fault("texts over three bytes", check_exact(&s, &a, lengths, 3), all[i].number, 0, all[i].place);
    }
    static const int32_t offsets[] = {0, 2, 9, 9};
    static const uint8_t first_and_last[] = {1};
    const void *buffers[] = {first_and_last, offsets, "abc"};
    const size_t lengths[] = {1, 12, 3};
    struct ArrowSchema s = schema("u", ARROW_FLAG_NULLABLE, NULL, 0);
    struct ArrowArray a = array(2, 0, buffers, 3, NULL, 0);
    expect_fault("a null row that passes the heap", check_exact(&s, &a, lengths, 3), 0, 0, 0);
    const void *no_heap[] = {NULL, offsets, NULL};
    const size_t no_length[] = {0, 12, 0};
    a = array(2, 0, no_heap, 3, NULL, 0);
    expect_fault("texts without a heap", check_exact(&s, &a, no_length, 3), CODRASK_BAD_START, 0, 0);
}

/* Of three texts two are read: the last offset is no length, where lengths are told. */
static void texts_read_in_part(void) {
    static const int32_t offsets[] = {0, 2, 5, INT32_MAX};
    const void *buffers[] = {NULL, offsets, "abcde"}, *none[] = {NULL};
    struct ArrowSchema inner = schema("u", 0, NULL, 0), *schemas[] = {&inner}, s = schema("+s", 0, schemas, 1);
    struct ArrowArray column = array(3, 0, buffers, 3, NULL, 0), *columns[] = {&column}, root = array(2, 0, none, 1, columns, 1);
    const size_t lengths[] = {0, 0, 12, 5}, all[] = {0, 0, 16, 5};
    expect_fault("two texts of three", check_exact(&s, &root, lengths, 4), 0, 0, 0);
    root.length = 3;
    expect_fault("three texts", check_exact(&s, &root, all, 4), CODRASK_BAD_START, 1, 2);
    column.length = INT64_MAX, root.length = 2;
    expect_fault("two texts of more than all memory has", check_exact(&s, &root, lengths, 4), 0, 0, 0);
}

/* ---- which lengths are refused, and when ---- */

static void views_past(void) {
    static const struct codrask_view views[1] = {{{0}}};
    int64_t sizes[] = {3, 4};
    const void *buffers[] = {NULL, views, "abc", NULL, sizes};
    struct ArrowSchema s = schema("vz", 0, NULL, 0);
    struct ArrowArray a = array(1, 0, buffers, 5, NULL, 0);
    const size_t lengths[] = {0, 16, 3, 0, 16}, no_sizes[] = {0, 16, 3, 0, 0};
    expect_fault("a size of a buffer that is a null pointer", check_exact(&s, &a, lengths, 5), SHORT, 0, 3);
    sizes[1] = 0;
    expect_fault("a size of 0", check_exact(&s, &a, lengths, 5), 0, 0, 0);
    sizes[0] = -1;
    expect_fault("a negative size", check_exact(&s, &a, lengths, 5), CODRASK_BAD_ARROW, 0, 0);
    sizes[0] = INT64_MAX;
    expect_fault("a size past all memory", check_exact(&s, &a, lengths, 5), SHORT, 0, 2);
    buffers[4] = NULL;
    expect_fault("no sizes", check_exact(&s, &a, no_sizes, 5), SHORT, 0, 4);
}

static void buffers_missing(void) {
    const void *none[] = {NULL, NULL, NULL};
    const size_t lengths[3] = {0};
    struct ArrowSchema s = schema("l", 0, NULL, 0);
    struct ArrowArray a = array(1, 0, none, 2, NULL, 0);
    expect_fault("numbers without a buffer", check_sized(&s, &a, lengths, 2), SHORT, 0, 1);
    a.length = INT64_MAX;
    expect_fault("rows past all memory", check_sized(&s, &a, lengths, 2), SHORT, 0, 1);
    const void *some[] = {NULL, numbers, "abc"};
    const size_t most[] = {0, SIZE_MAX, SIZE_MAX};
    a.buffers = some;
    expect_fault("rows and a length past all memory", check_sized(&s, &a, most, 2), CODRASK_BAD_ARROW, 0, 0);
    a.buffers = none;
    static const int32_t offsets[] = {0, 3};
    some[1] = offsets, a.buffers = some, s.format = "u", a.n_buffers = 3, a.length = 1;
    expect_fault("a text and lengths past all memory", check_sized(&s, &a, most, 3), 0, 0, 0);
    a.buffers = none;
    expect_fault("texts without offsets", check_sized(&s, &a, lengths, 3), SHORT, 0, 1);
    a.length = 0;
    expect_fault("no texts", check_sized(&s, &a, lengths, 3), 0, 0, 0);
}

static void wrong_lengths(void) {
    const void *buffers[] = {NULL, numbers}, *none[] = {NULL};
    struct ArrowSchema number = schema("l", 0, NULL, 0), *schemas[] = {&number, &number}, s = schema("+s", 0, schemas, 2);
    struct ArrowArray one = array(3, 0, buffers, 2, NULL, 0), other = one, *columns[] = {&one, &other},
                      a = array(3, 0, none, 1, columns, 2);
    const size_t lengths[] = {0, 0, 24, 0, 24, 0};
    struct codrask_table table;
    for (size_t count = 0; count <= COUNT(lengths); count++)
        expect_fault("a count of lengths", check_sized(&s, &a, lengths, count), count == 5 ? 0 : CODRASK_BAD_LENGTHS, 0, 0);
    expect_fault("lengths that are a null pointer", check_sized(&s, &a, NULL, 5), CODRASK_BAD_LENGTHS, 0, 0);
    expect_fault("no lengths", check_sized(&s, &a, NULL, 0), CODRASK_BAD_LENGTHS, 0, 0);
    expect_fault("a reading of lengths that are a null pointer", read_sized(&s, &a, (struct codrask_reading){.length_count = 5}, &table),
                 CODRASK_BAD_LENGTHS, 0, 0);
    expect_fault("a reading of 0 lengths", read_sized(&s, &a, (struct codrask_reading){.lengths = lengths}, &table), CODRASK_BAD_LENGTHS, 0,
                 0);
    tell("a table of wrong lengths", codrask_table_from_arrow_sized(&s, &a, lengths, 4, &table) == CODRASK_BAD_LENGTHS && !table.nodes);
    tell("a table", !codrask_table_from_arrow_sized(&s, &a, lengths, 5, &table) && table.count == 3);
    codrask_table_free(&table);
    tell("no way is told", !codrask_read_arrow_sized(&s, &a, NULL, &table, &told) && table.count == 3 && !told.fault.number);
    codrask_table_free(&table);
    for (size_t i = 0; i < 5; i++) {
        size_t turned[] = {0, 0, 24, 0, 24};
        turned[i] = turned[i] ? 23 : 1;
        bool null = i == 0 || i % 2;
        expect_fault("the length of a null pointer, or one that is short", check_sized(&s, &a, turned, 5),
                     null ? CODRASK_BAD_LENGTHS : SHORT, null ? 0 : i / 2, null ? 0 : 1);
    }
}

/* Structs come first, then lengths, then buffers, then limits, then rows. */
static void order(void) {
    const void *buffers[] = {NULL, numbers}, *none[] = {NULL};
    struct ArrowSchema number = schema("l", 0, NULL, 0), *schemas[] = {&number, &number}, s = schema("+s", 0, schemas, 2);
    struct ArrowArray one = array(3, 0, buffers, 2, NULL, 0), other = one, *columns[] = {&one, &other},
                      a = array(3, 0, none, 1, columns, 2);
    const size_t lengths[] = {0, 0, 23, 0, 23};
    struct codrask_table table;
    one.null_count = 1;
    expect_fault("the first buffer that is short", check_sized(&s, &a, lengths, 5), SHORT, 1, 1);
    const size_t enough[] = {0, 0, 24, 0, 23}, all[] = {0, 0, 24, 0, 24};
    expect_fault("the second one, before a null count", check_sized(&s, &a, enough, 5), SHORT, 2, 1);
    struct codrask_reading how = {.limits = {1}, .lengths = enough, .length_count = 5};
    expect_fault("a short buffer before a limit", read_sized(&s, &a, how, &table), SHORT, 2, 1);
    how.lengths = all;
    expect_fault("a limit before a null count", read_sized(&s, &a, how, &table), CODRASK_TOO_MANY_BYTES, 0, 0);
    how.limits.bytes = 0;
    expect_fault("a null count", read_sized(&s, &a, how, &table), CODRASK_BAD_NULL_COUNT, 1, 0);
    expect_fault("wrong lengths before a short buffer", check_sized(&s, &a, lengths, 4), CODRASK_BAD_LENGTHS, 0, 0);
    other.release = NULL;
    expect_fault("a column that was released before all", check_sized(&s, &a, lengths, 4), CODRASK_RELEASED, 2, 0);
    other.release = keep_array, other.n_buffers = INT64_MAX;
    expect_fault("buffers past all memory", check_sized(&s, &a, lengths, 5), CODRASK_BAD_ARROW, 2, 0);
    expect_fault("no schema", check_sized(NULL, &a, lengths, 5), CODRASK_BAD_ARROW, 0, 0);
}

/* ---- random structures ---- */

static struct structure made;
static struct needs needs;
static size_t lengths[MOST_NEEDS + 1];
static size_t numbers_told[80];

/* A random structure, with what its rows need and the lengths of its blocks. */
static void build_sized(uint64_t seed) {
    build_seed(&made, seed);
    needs_of(&needs, made.slots[0].schema, made.slots[0].array);
    if (put_lengths(&made, made.slots[0].array, lengths) != needs.count)
        abort();
    lengths[needs.count] = 0;
}

/* Whether the structure, where a buffer has so many bytes, is told as its rows need. Where only null rows pass a heap, it has fewer. */
static bool is_as_needed(size_t i, size_t bytes, const struct codrask_table *wanted) {
    const struct need *need = &needs.each[i];
    struct codrask_fault fault = fault_of_length(need, bytes);
    struct lent lent = lend(&need->array->buffers[need->place], lengths[i], bytes);
    size_t before = lengths[i];
    lengths[i] = bytes;
    struct codrask_reading how = {.lengths = lengths, .length_count = needs.count};
    is_same *is_wanted = bytes < need->bytes ? has_same_rows : is_same_table;
    bool good = is_told(made.slots[0].schema, made.slots[0].array, how, is_wanted, wanted, fault);
    numbers_told[fault.number]++;
    lengths[i] = before;
    give_back(lent);
    return good;
}

static void tell_seed(const char *what, uint64_t seed, bool good) {
    if (!good)
        printf("seed %llu: ", (unsigned long long)seed);
    tell(what, good);
}

/* Each buffer with a byte less than its rows need, with as many, and with more. */
static void each_length(uint64_t seed, const struct codrask_table *wanted) {
    for (size_t i = 0; i < needs.count; i++) {
        const struct need *need = &needs.each[i];
        if (!need->array->buffers[need->place])
            continue;
        bool good = is_as_needed(i, need->bytes, wanted) && is_as_needed(i, need->bytes + 1 + roll(9), wanted)
                    && (!need->bytes || is_as_needed(i, need->bytes - 1, wanted));
        tell_seed("each length", seed, good);
    }
}

/* A whole structure by its lengths; then with one that is turned down. */
static void whole_structure(uint64_t seed, bool each) {
    struct codrask_table wanted;
    build_sized(seed);
    struct codrask_reading how = {.lengths = lengths, .length_count = needs.count};
    const struct slot *root = &made.slots[0];
    if (codrask_table_from_arrow(root->schema, root->array, &wanted))
        abort();
    tell_seed("whole", seed, is_told(root->schema, root->array, how, is_same_table, &wanted, no_fault));
    size_t turned = roll(needs.count);
    if (lengths[turned])
        tell_seed("a length turned down", seed, is_as_needed(turned, roll(lengths[turned]), &wanted));
    if (each)
        each_length(seed, &wanted);
    codrask_table_free(&wanted);
    tear_down(&made);
}

/* A format with as many buffers, which mostly needs more bytes. */
static const char *turned_format(const char *format) {
    static const char *const turns[][2] = {
        {"b", "c"},     {"c", "s"},   {"s", "i"},     {"i", "l"},     {"C", "S"},       {"S", "I"},       {"I", "L"},
        {"tdD", "tdm"}, {"tts", "l"}, {"u", "U"},     {"z", "Z"},     {"U", "u"},       {"Z", "z"},       {"vz", "vu"},
        {"+l", "+L"},   {"+L", "+l"}, {"+vl", "+vL"}, {"+vL", "+vl"}, {"+w:0", "+w:1"}, {"+w:1", "+w:9"}, {"+w:2", "+w:2147483647"},
        {"+w:3", "+s"}};
    for (size_t i = 0; i < COUNT(turns); i++)
        if (!strcmp(format, turns[i][0]))
            return turns[i][1];
    return "l";
}

/* Lets an array tell of more than there is: rows, where values end, how long buffers are, how wide numbers are. */
static void turn_up(const struct slot *t) {
    struct ArrowArray *array = t->array;
    size_t place = array->n_buffers > 1 ? 1 + roll((size_t)array->n_buffers - 1) : 0,
           size = place ? size_of_block(&made, array->buffers[place]) : 0;
    switch (roll(5)) {
    case 0: array->length += (int64_t)(1 + roll(roll(2) ? 20 : 1 << 30)); return;
    case 1: array->offset += (int64_t)(1 + roll(roll(2) ? 20 : 1 << 30)); return;
    case 2: t->schema->format = text(&made, turned_format(t->schema->format)); return;
    default:
        for (size_t i = 0; size && i < 1 + roll(3); i++)
            ((uint8_t *)(uintptr_t)array->buffers[place])[roll(size)] ^= (uint8_t)(1 + roll(255));
    }
}

/* A structure that tells of more than there is, and whose structs may lie, is refused, or it is a column, which is written. */
static bool is_refused_or_column(const struct slot *root, size_t count) {
    struct codrask_reading how = {.lengths = lengths, .length_count = count};
    struct codrask_table table;
    struct codrask_fault fault = read_sized(root->schema, root->array, how, &table);
    numbers_told[fault.number < COUNT(numbers_told) ? fault.number : 79]++;
    if (fault.number)
        return fault.number != CODRASK_MEMORY && fault.number < COUNT(numbers_told);
    struct ArrowSchema schema;
    struct ArrowArray array;
    uint32_t number = codrask_to_arrow(table.nodes, table.count, CODRASK_BY_VIEWS, &schema, &array, &fault);
    codrask_table_free(&table);
    if (!number) {
        schema.release(&schema);
        array.release(&array);
    }
    return !number || number == CODRASK_TOO_MANY_BYTES;
}

/* Lengths that are true, or one that is turned down, of a structure that tells of more. */
static void turned_up(uint64_t seed) {
    build_sized(seed);
    dice += 7 * seed;
    size_t turned = roll(needs.count), bytes = roll(lengths[turned] + 1);
    struct lent lent = {0};
    if (lengths[turned]) {
        lent = lend(&needs.each[turned].array->buffers[needs.each[turned].place], lengths[turned], bytes);
        lengths[turned] = bytes;
    }
    for (size_t i = 0; i < 1 + seed % 3; i++)
        turn_up(&made.slots[roll(made.count)]);
    tell_seed("turned up", seed, is_refused_or_column(&made.slots[0], needs.count));
    if (lent.place)
        give_back(lent);
    tear_down(&made);
}

/* The same of one whose structs may lie. */
static void turned_structs(uint64_t seed) {
    build_sized(seed);
    dice += 5 * seed;
    turn_structure(&made);
    size_t turned = roll(needs.count);
    if (seed % 2)
        lengths[turned] = roll(lengths[turned] + 1);
    tell_seed("turned structs", seed, is_refused_or_column(&made.slots[0], needs.count));
    tear_down(&made);
}

int main(int count, char **words) {
    uint64_t seeds = count > 1 ? strtoull(words[1], NULL, 10) : 10000;
    flat_by_hand();
    texts_by_hand();
    views_by_hand();
    lists_by_hand();
    carried_by_hand();
    records_by_hand();
    texts_past();
    texts_read_in_part();
    views_past();
    buffers_missing();
    wrong_lengths();
    order();
    for (uint64_t seed = 1; seed <= seeds; seed++) {
        whole_structure(seed, seed % 10 == 0);
        turned_up(seed);
        turned_structs(seed);
    }
    for (uint32_t number = 0; number < COUNT(numbers_told); number++)
        if (numbers_told[number])
            printf("%s %zu ", codrask_fault_name(number), numbers_told[number]);
    printf("\n%d passed, %d failed\n", passed, failed);
    return failed != 0;
}
