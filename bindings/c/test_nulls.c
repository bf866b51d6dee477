/* Nulls of Arrow arrays that may have none, by name and at random: a row may be null where the records or the list of one size that it
 * lies in are, since Arrow keeps the bitmap of a child and that of its parent apart. The last line is 'N passed, M failed'. */
#include "arrow_by_hand.h"

static const uint8_t second_null[] = {0xfd, 0xff}, third_null[] = {0xfb, 0xff}, no_null[] = {0xff, 0xff};
static const int64_t numbers[] = {1, 2, 3, 4, 5, 6, 7, 8, 9, 10};

/* What is told of a parent of some format that may be null, over numbers that may not. */
static void parent(const char *what, const char *format, struct ArrowArray *lists, const void **bitmaps, uint32_t number, size_t place) {
    const void *buffers[] = {bitmaps[1], numbers};
    struct ArrowSchema field = schema("l", 0, NULL, 0), *schemas[] = {&field}, s = schema(format, ARROW_FLAG_NULLABLE, schemas, 1);
    struct ArrowArray child = array(10, 0, buffers, 2, NULL, 0), *parts[] = {&child};
    lists->children = parts, lists->n_children = 1;
    lists->buffers[0] = bitmaps[0];
    expect(what, &s, lists, number, number ? 2 : 0, place);
}

static void records(void) {
    const void *none[1], *same[] = {second_null, second_null}, *other[] = {second_null, third_null}, *without[] = {no_null, second_null};
    struct ArrowArray a = array(4, 0, none, 1, NULL, 0);
    parent("a null of a record that is null", "+s", &a, same, 0, 0);
    parent("a null of a record that is not", "+s", &a, other, CODRASK_UNEXPECTED_NULL, 2);
    parent("a null where no record is null", "+s", &a, without, CODRASK_UNEXPECTED_NULL, 1);
    a.offset = 1, a.length = 3;
    parent("a null of the first record from an offset on", "+s", &a, same, 0, 0);
    parent("a null of the second record from an offset on", "+s", &a, other, CODRASK_UNEXPECTED_NULL, 1);
}

static void lists_of_one_size(void) {
    const void *none[1], *same[] = {second_null, third_null}, *other[] = {second_null, second_null};
    struct ArrowArray a = array(4, 0, none, 1, NULL, 0);
    parent("an element of a list that is null", "+w:2", &a, same, 0, 0);
    parent("an element of a list that is not", "+w:2", &a, other, CODRASK_UNEXPECTED_NULL, 1);
    a.offset = 1, a.length = 3;
    parent("an element of the first list from an offset on", "+w:2", &a, same, 0, 0);
}

/* The elements of other lists are an array of their own, and no row of the lists says which of them may be null. */
static void other_lists(void) {
    static const int32_t offsets[] = {0, 1, 2, 3, 4}, sizes[] = {1, 1, 1, 1};
    const void *buffers[] = {NULL, offsets, sizes}, *same[] = {second_null, second_null};
    struct ArrowArray a = array(4, 0, buffers, 2, NULL, 0);
    parent("an element of a null list by offsets", "+l", &a, same, CODRASK_UNEXPECTED_NULL, 1);
    a.n_buffers = 3;
    parent("an element of a null list by views", "+vl", &a, same, CODRASK_UNEXPECTED_NULL, 1);
}

/* The codes of a dictionary lie in records, its values do not: nodes 3 and 4. */
static void dictionaries(void) {
    static const uint8_t codes[8];
    const void *none[] = {second_null}, *code_buffers[] = {second_null, codes}, *value_buffers[] = {NULL, numbers};
    struct ArrowArray values = array(4, 0, value_buffers, 2, NULL, 0), column = array(4, 0, code_buffers, 2, NULL, 0);
    struct ArrowSchema value = schema("l", 0, NULL, 0), code = schema("C", 0, NULL, 0), *schemas[] = {&code};
    struct ArrowArray *columns[] = {&column}, a = array(4, 0, none, 1, columns, 1);
    struct ArrowSchema s = schema("+s", ARROW_FLAG_NULLABLE, schemas, 1);
    code.dictionary = &value, column.dictionary = &values;
    expect("a null code of a record that is null", &s, &a, 0, 0, 0);
    code_buffers[0] = third_null;
    expect("a null code of a record that is not", &s, &a, CODRASK_UNEXPECTED_NULL, 3, 2);
    code_buffers[0] = NULL, value_buffers[0] = second_null;
    expect("a null value at the place of a record that is null", &s, &a, CODRASK_UNEXPECTED_NULL, 4, 1);
}

/* Two null counts, of a null that is not read: where none may be null, and where rows may. */
static void nulls_that_are_not_read(void) {
    const void *none[] = {NULL}, *buffers[] = {second_null, numbers};
    struct ArrowArray column = array(9, 0, buffers, 2, NULL, 0), *columns[] = {&column}, root = array(3, 4, none, 1, columns, 1);
    struct ArrowSchema inner = schema("l", 0, NULL, 0), *schemas[] = {&inner}, s = schema("+s", 0, schemas, 1);
    expect("a null that is not read", &s, &root, 0, 0, 0);
    column.null_count = 1;
    expect("a null that is counted and not read", &s, &root, 0, 0, 0);
    root.offset = 0;
    expect("a null that is counted and read", &s, &root, CODRASK_UNEXPECTED_NULL, 1, 1);
}

/* ---- at random ---- */

static uint64_t dice = 7;

static size_t roll(size_t n) {
    dice = dice * 6364136223846793005u + 1442695040888963407u;
    return (size_t)(dice >> 33) % n;
}

static bool is_set(const uint8_t *bits, size_t i) {
    return !bits || bits[i / 8] >> i % 8 & 1;
}

/* A bitmap of just so many bits, each set; in one case of three none. */
static uint8_t *bitmap(size_t count) {
    uint8_t *bits = roll(3) ? malloc(count / 8 + 1) : NULL;
    if (bits)
        memset(bits, 0xff, count / 8 + 1);
    return bits;
}

static void unset(uint8_t *bits, size_t i) {
    if (bits)
        bits[i / 8] &= (uint8_t)~(1u << i % 8);
}

/* Records, that have lists of one size, of records, of numbers. The upper levels may be null, two or three; those below may not. */
struct nest {
    size_t rows, each, nullable, offsets[4], first[4]; /* for each level, the bit of the first row that is read */
    uint8_t *bits[4], *numbers;
};

static void make_nest(struct nest *n) {
    n->rows = 1 + roll(60), n->each = 1 + roll(4), n->nullable = 2 + roll(2);
    for (size_t i = 0; i < 4; i++)
        n->offsets[i] = roll(20);
    n->first[0] = n->offsets[0], n->first[1] = n->first[0] + n->offsets[1];
    n->first[2] = n->first[1] * n->each + n->offsets[2], n->first[3] = n->first[2] + n->offsets[3];
    for (size_t i = 0; i < 4; i++)
        n->bits[i] = bitmap(n->first[i] + n->rows * (i < 2 ? 1 : n->each));
    n->numbers = calloc(n->first[3] + n->rows * n->each, 1);
}

/* Whether what a row of a level lies in is null, of the levels that may be. */
static bool is_within_null(const struct nest *n, size_t level, size_t row) {
    return !is_set(n->bits[0], n->first[0] + row / n->each) || !is_set(n->bits[1], n->first[1] + row / n->each)
           || (level == 3 && !is_set(n->bits[2], n->first[2] + row));
}

static void put_nulls(struct nest *n) {
    for (size_t row = 0; row < n->rows; row++) {
        if (!roll(3))
            unset(n->bits[0], n->first[0] + row);
        if (!roll(3))
            unset(n->bits[1], n->first[1] + row);
    }
    for (size_t row = 0; row < n->rows * n->each; row++) {
        if (n->nullable == 3 ? !roll(3) : is_within_null(n, 2, row) && roll(2))
            unset(n->bits[2], n->first[2] + row);
        if (is_within_null(n, 3, row) && roll(4))
            unset(n->bits[3], n->first[3] + row);
    }
}

static void expect_nest(const char *what, const struct nest *n, uint32_t number, size_t node, size_t place) {
    static const char *const formats[] = {"+s", "+w:", "+s", "C"};
    const void *buffers[4][2];
    char size[] = "+w:0";
    struct ArrowSchema schemas[4], *schema_parts[4];
    struct ArrowArray arrays[4], *parts[4];
    size[3] = (char)('0' + n->each);
    for (size_t i = 0; i < 4; i++) {
        int64_t length = (int64_t)(n->first[i] - n->offsets[i] + n->rows * (i < 2 ? 1 : n->each)), last = i == 3;
        buffers[i][0] = n->bits[i], buffers[i][1] = n->numbers;
        schemas[i] = schema(i == 1 ? size : formats[i], i < n->nullable ? ARROW_FLAG_NULLABLE : 0, &schema_parts[i], !last);
        arrays[i] = array(i ? length : (int64_t)n->rows, (int64_t)n->offsets[i], buffers[i], 1 + last, &parts[i], !last);
        schema_parts[i] = &schemas[last ? i : i + 1], parts[i] = &arrays[last ? i : i + 1];
    }
    expect(what, &schemas[0], &arrays[0], number, node, place);
}

/* All nulls lie in nulls: it is read. Then one more, which does not: it is told. */
static void nests(void) {
    for (size_t seed = 0; seed < 3000; seed++) {
        struct nest n;
        make_nest(&n);
        put_nulls(&n);
        expect_nest("nulls that lie in nulls", &n, 0, 0, 0);
        size_t row = roll(n.rows * n.each), level = n.nullable + roll(4 - n.nullable), node = level;
        for (size_t i = 0; i < n.nullable; i++)
            node += !!n.bits[i];
        unset(n.bits[level], n.first[level] + row);
        bool told = n.bits[level] && !is_within_null(&n, level, row);
        expect_nest("one null more", &n, told ? CODRASK_UNEXPECTED_NULL : 0, told ? node : 0, told ? row : 0);
        for (size_t i = 0; i < 4; i++)
            free(n.bits[i]);
        free(n.numbers);
    }
}

int main(void) {
    records();
    lists_of_one_size();
    other_lists();
    dictionaries();
    nulls_that_are_not_read();
    nests();
    printf("%d passed, %d failed\n", passed, failed);
    return failed != 0;
}
