/* Arrow arrays by hand, as tables: each format that is read, at an offset, with nulls; and what is not read. The last line is
 * 'N passed, M failed'. */
#include "arrow_by_hand.h"


static const uint8_t some_valid[] = {0xfd, 0xff};
static const int64_t numbers[] = {1, 2, 3, 4, 5, 6, 7, 8, 9, 10};

static void flat(void) {
    const void *buffers[] = {some_valid, numbers};
    const char *formats[] = {"c", "C", "s", "S", "i", "I", "l", "L", "b"};
    struct ArrowArray a = array(8, 2, buffers, 2, NULL, 0);
    for (size_t i = 0; i < COUNT(formats); i++) {
        struct ArrowSchema s = schema(formats[i], ARROW_FLAG_NULLABLE, NULL, 0);
        expect(formats[i], &s, &a, 0, 0, 0);
    }
    const char *others[] = {"n",     "+m", "+w:", "+w:-1",     "+w:2147483648", "",      "+r",   "+us:0",
                            "+ud:0", "ll", "ts",  "tsgarbage", "tsm",           "tDqqq", "tDmm", "C1"};
    for (size_t i = 0; i < COUNT(others); i++) {
        struct ArrowSchema s = schema(others[i], 0, NULL, 0);
        expect(others[i], &s, &a, CODRASK_BAD_ARROW, 0, 0);
    }
    struct ArrowSchema s = schema("l", 0, NULL, 0);
    a.length = -1;
    expect("a negative length", &s, &a, CODRASK_BAD_ARROW, 0, 0);
    const void *missing[] = {NULL, NULL};
    a.length = 0, a.offset = 0, a.buffers = missing;
    expect("no rows, no buffers", &s, &a, 0, 0, 0);
    a.length = 3;
    expect("rows without buffers", &s, &a, CODRASK_LENGTH_MISMATCH, 0, 0);
}

static void texts_by_offsets(void) {
    const char heap[] = "abca longer text\xff";
    int32_t offsets[] = {0, 3, 3, 16, 17};
    const void *buffers[] = {some_valid, offsets, heap};
    struct ArrowArray a = array(3, 1, buffers, 3, NULL, 0);
    struct ArrowSchema s = schema("z", ARROW_FLAG_NULLABLE, NULL, 0);
    expect("byte lists by offsets", &s, &a, 0, 0, 0);
    s.format = "u";
    expect("bytes that are no text", &s, &a, CODRASK_NOT_UTF8, 0, 2);
    a.length = 2;
    expect("texts by offsets", &s, &a, 0, 0, 0);
    offsets[2] = 2;
    expect("a row that begins before the first one", &s, &a, CODRASK_BAD_BUFFER, 0, 1);
    a.offset = 0, a.length = 3;
    expect("a null row whose offset falls", &s, &a, 0, 0, 0);
    buffers[0] = NULL;
    expect("a row whose offset falls", &s, &a, CODRASK_BAD_BUFFER, 0, 1);
    offsets[1] = 18, buffers[0] = some_valid;
    expect("an offset past the last one", &s, &a, CODRASK_BAD_BUFFER, 0, 0);
    offsets[1] = -1;
    expect("a negative offset", &s, &a, CODRASK_BAD_BUFFER, 0, 0);
    offsets[1] = 3, offsets[2] = -1, a.length = 2;
    expect("a last offset that is negative", &s, &a, CODRASK_BAD_BUFFER, 0, 0);
    int64_t large[] = {0, 3, 16, 5000000000, 5000000001};
    buffers[1] = large, s.format = "U";
    expect("texts by large offsets", &s, &a, 0, 0, 0);
    buffers[1] = NULL;
    expect("rows without offsets", &s, &a, CODRASK_LENGTH_MISMATCH, 0, 0);
    a.offset = 0, a.length = 0, a.null_count = 0, s.format = "u";
    expect("no rows, no offsets", &s, &a, 0, 0, 0);
}

static void lists(void) {
    const void *inner[] = {NULL, numbers};
    struct ArrowArray items = array(10, 0, inner, 2, NULL, 0), *parts[] = {&items};
    struct ArrowSchema item = schema("l", ARROW_FLAG_NULLABLE, NULL, 0), *schemas[] = {&item};
    int32_t offsets[] = {0, 2, 5, 5, 9};
    const void *buffers[] = {some_valid, offsets, NULL};
    struct ArrowArray a = array(3, 1, buffers, 2, parts, 1);
    struct ArrowSchema s = schema("+l", ARROW_FLAG_NULLABLE, schemas, 1);
    expect("lists by offsets", &s, &a, 0, 0, 0);
    offsets[3] = 4;
    expect("an offset that falls", &s, &a, CODRASK_NEGATIVE, 0, 1);
    offsets[3] = 5, offsets[4] = 11;
    expect("an offset past the elements", &s, &a, CODRASK_OUT_OF_BOUNDS, 0, 11);
    offsets[3] = 10, offsets[4] = 9;
    expect("an offset past the last one: both are counted from the first one", &s, &a, CODRASK_OUT_OF_BOUNDS, 0, 8);
    offsets[3] = 5;
    int32_t sizes[] = {9, 2, 1, 9, 9};
    offsets[4] = 9, buffers[2] = sizes, s.format = "+vl", a.n_buffers = 3, a.length = 2;
    expect("list views", &s, &a, 0, 0, 0);
    sizes[2] = -1;
    expect("a negative size", &s, &a, CODRASK_NEGATIVE, 0, 1);
    int64_t large[] = {0, 3, 10};
    buffers[1] = large, s.format = "+L", a.offset = 0, a.n_buffers = 2;
    expect("lists by large offsets", &s, &a, 0, 0, 0);
    s.format = "+L", a.offset = 0, a.length = 0, buffers[1] = NULL;
    expect("no lists, no offsets", &s, &a, 0, 0, 0);
    s.format = "+w:2", a.offset = 1, a.length = 4, a.n_buffers = 1;
    expect("lists of one size", &s, &a, 0, 0, 0);
    a.length = 5;
    expect("lists of one size past the elements", &s, &a, CODRASK_LENGTH_MISMATCH, 0, 0);
    static const char *const sizes_of_none[] = {"+w:", "+w:-1", "+w:2x", "+w:2147483648", "+w:18446744073709551618", "w:2", "+w2"};
    a.length = 0, a.offset = 0;
    for (size_t i = 0; i < COUNT(sizes_of_none); i++) {
        s.format = sizes_of_none[i];
        expect(s.format, &s, &a, CODRASK_BAD_ARROW, 0, 0);
    }
    s.format = "+w:2147483647";
    expect("lists of the greatest size", &s, &a, 0, 0, 0);
    s.n_children = 0;
    expect("lists without elements", &s, &a, CODRASK_BAD_ARROW, 0, 0);
}

static void records(void) {
    const uint8_t codes[] = {0, 1, 2, 1};
    const int64_t heap_len[] = {13};
    struct {
        int32_t size;
        char prefix[4];
        int32_t block, start;
    } views[] = {{3, "abc", 0, 0}, {13, "a lo", 0, 0}, {0, "", 0, 0}, {3, "xyz", 0, 0}};
    const void *code_buffers[] = {NULL, codes}, *value_buffers[] = {NULL, numbers},
               *text_buffers[] = {some_valid, views, "a longer text", heap_len};
    const void *no_buffers[] = {NULL};
    struct ArrowArray values = array(3, 1, value_buffers, 2, NULL, 0), dictionary = array(4, 0, code_buffers, 2, NULL, 0);
    struct ArrowArray texts = array(4, 0, text_buffers, 4, NULL, 0), *parts[] = {&dictionary, &texts};
    struct ArrowSchema value = schema("l", 0, NULL, 0), coded = schema("C", 0, NULL, 0), text = schema("vu", ARROW_FLAG_NULLABLE, NULL, 0);
    struct ArrowSchema *schemas[] = {&coded, &text}, s = schema("+s", 0, schemas, 2);
    struct ArrowArray a = array(3, 1, no_buffers, 1, parts, 2);
    coded.dictionary = &value, dictionary.dictionary = &values;
    expect("records of a dictionary and of texts", &s, &a, 0, 0, 0);
    values.length = 2;
    expect("a code past the values", &s, &a, CODRASK_OUT_OF_BOUNDS, 1, 2);
    values.length = 3, texts.length = 3;
    expect("a column that is too short", &s, &a, CODRASK_LENGTH_MISMATCH, 0, 0);
    texts.length = 4, text.name = "\xff";
    expect("a name that is no text", &s, &a, CODRASK_NOT_UTF8, 0, 1);
    text.name = "x", views[3].prefix[0] = (char)0xff;
    expect("a value that is no text", &s, &a, CODRASK_NOT_UTF8, 4, 2);
}

int main(void) {
    flat();
    texts_by_offsets();
    lists();
    records();
    printf("%d passed, %d failed\n", passed, failed);
    return failed != 0;
}
