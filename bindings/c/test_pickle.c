/* Texts and byte lists as pickles: each byte of one is as a plain loop makes it, out of blocks of just their length, of whose bytes those
 * alone may be read that views of rows which are there refer to. Run it under the sanitizers. The last line is 'N passed, M failed'. */
#define _DEFAULT_SOURCE
#include "by_hand.h"
#include "tables.h"

#include <stdio.h>
#include <sys/mman.h>

/* More memory than there is is refused, also under the sanitizer. */
const char *__asan_default_options(void);

const char *__asan_default_options(void) {
    return "allocator_may_return_null=1";
}

static int passed, failed;

static void tell(const char *what, bool good) {
    good ? passed++ : failed++;
    if (!good)
        printf("%s: not as wanted\n", what);
}

/* ---- a plain loop ---- */

enum { MOST_BYTES = 1 << 18 };

static uint8_t wanted[MOST_BYTES];
static size_t wanted_count;

static void want(const void *bytes, size_t count) {
    if (wanted_count + count > MOST_BYTES)
        abort();
    memcpy(wanted + wanted_count, bytes, count);
    wanted_count += count;
}

/* A number of four bytes in a view. */
static size_t number_at(const struct codrask_view *view, size_t place) {
    size_t number = 0;
    for (size_t k = 4; k-- > 0;)
        number = 256 * number + view->bytes[place + k];
    return number;
}

static void want_value(const struct codrask_node *node, const struct codrask_view *view) {
    size_t size = number_at(view, 0);
    want(node->kind == CODRASK_UTF8_VIEW ? "X" : "B", 1);
    want(view->bytes, 4);
    if (size < 13)
        want(view->bytes + 4, size);
    else
        want(node->buffers[number_at(view, 8)].bytes + number_at(view, 12), size);
}

static void want_rows(const struct codrask_node *node, const uint8_t *valid) {
    wanted_count = 0;
    want("\x80\x03](", 4);
    for (size_t i = 0; i < node->length; i++) {
        if (valid && !valid[i])
            want("N", 1);
        else
            want_value(node, &node->views[i]);
    }
    want("e.", 2);
}

/* Whether a node has the pickle that is wanted, and gives it back. */
static bool has_wanted(const struct codrask_node *node, const uint8_t *valid) {
    struct codrask_bytes made = {none, 0};
    if (codrask_pickle(node, valid, &made))
        return false;
    bool good = made.count == wanted_count && !memcmp(made.bytes, wanted, wanted_count);
    codrask_pickle_free(&made);
    good = good && made.bytes && made.count == 0;
    codrask_pickle_free(&made);
    return good;
}

/* ---- by hand ---- */

static struct codrask_view view(size_t size, const char *first, uint32_t buffer, uint32_t start) {
    struct codrask_view made = {{0}};
    const uint32_t count = (uint32_t)size;
    memcpy(made.bytes, &count, 4);
    memcpy(made.bytes + 4, first, size > 12 ? 4 : size);
    if (size > 12) {
        memcpy(made.bytes + 8, &buffer, 4);
        memcpy(made.bytes + 12, &start, 4);
    }
    return made;
}

static struct codrask_node values(uint32_t kind, const struct codrask_view *views, size_t count, const struct codrask_bytes *buffers,
                                  size_t buffer_count) {
    struct codrask_node n = node(kind, CODRASK_NON_NULLABLE, count);
    n.views = views, n.view_count = count;
    n.buffers = buffers, n.buffer_count = buffer_count;
    return n;
}

#define EXACTLY(what, node, valid, text) \
    (wanted_count = 0, want(text, sizeof(text) - 1), tell(what, has_wanted(node, valid)))

/* Seven times `\u00e9`. */
#define SEVEN "\xc3\xa9\xc3\xa9\xc3\xa9\xc3\xa9\xc3\xa9\xc3\xa9\xc3\xa9"

static void by_hand(void) {
    static const struct codrask_bytes heaps[] = {{(const uint8_t *)"-thirteen bytes", 14}, {(const uint8_t *)SEVEN, 14}};
    const struct codrask_view all[] = {view(0, "", 0, 0), view(12, "twelve bytes", 0, 0), view(13, "thir", 0, 1), view(14, SEVEN, 1, 0),
                                       view(2, "\0\0", 0, 0)};
    static const uint8_t none_there[5], some_there[] = {0, 1, 0, 255, 2};
    struct codrask_node one = values(CODRASK_UTF8_VIEW, all, 5, heaps, 2);
    EXACTLY("texts", &one, NULL,
            "\x80\x03](X\0\0\0\0X\x0c\0\0\0twelve bytesX\x0d\0\0\0thirteen byteX\x0e\0\0\0" SEVEN "X\x02\0\0\0\0\0e.");
    EXACTLY("texts that are null", &one, none_there, "\x80\x03](NNNNNe.");
    one.kind = CODRASK_BINARY_VIEW;
    EXACTLY("byte lists of which some are null", &one, some_there,
            "\x80\x03](NB\x0c\0\0\0twelve bytesNB\x0e\0\0\0" SEVEN "B\x02\0\0\0\0\0e.");
    struct codrask_node nothing = node(CODRASK_UTF8_VIEW, CODRASK_ALL_VALID, 0);
    EXACTLY("no text", &nothing, NULL, "\x80\x03](e.");
    EXACTLY("no text, and none null", &nothing, none, "\x80\x03](e.");
}

/* What stands in the view of a null row is no size, no buffer and no place. */
static void junk_in_nulls(void) {
    struct codrask_view all[3];
    static const uint8_t last_there[] = {0, 0, 1};
    memset(all, 0xff, sizeof all);
    all[2] = view(3, "abc", 0, 0);
    struct codrask_node one = values(CODRASK_UTF8_VIEW, all, 3, (const struct codrask_bytes *)none, 0);
    EXACTLY("null rows whose views are none", &one, last_there, "\x80\x03](NNX\x03\0\0\0abce.");
}

/* Values of each size, each at the end of a block of just its length, and the last one of them last. */
static void each_size(void) {
    for (uint32_t kind = CODRASK_UTF8_VIEW; kind <= CODRASK_BINARY_VIEW; kind++) {
        bool good = true;
        for (size_t size = 0; size <= 70; size++) {
            uint8_t *bytes = malloc(size + 1);
            for (size_t i = 0; i <= size; i++)
                bytes[i] = (uint8_t)(200 + i);
            struct codrask_bytes heap = {bytes, size + 1};
            struct codrask_view *all = malloc(2 * sizeof *all);
            all[0] = all[1] = view(size, (const char *)bytes + 1, 0, 1);
            struct codrask_node one = values(kind, all, 2, &heap, 1);
            want_rows(&one, NULL);
            good = good && has_wanted(&one, NULL);
            free(all);
            free(bytes);
        }
        tell("values of each size", good);
    }
}

/* A value of each byte, and one of more than 64 KiB. */
static void long_values(void) {
    static uint8_t bytes[70000];
    for (size_t i = 0; i < sizeof bytes; i++)
        bytes[i] = (uint8_t)i;
    const struct codrask_bytes heap = {bytes, sizeof bytes};
    const struct codrask_view all[] = {view(256, (const char *)bytes, 0, 0), view(sizeof bytes, (const char *)bytes, 0, 0),
                                       view(1, "a", 0, 0)};
    struct codrask_node one = values(CODRASK_BINARY_VIEW, all, COUNT(all), &heap, 1);
    want_rows(&one, NULL);
    tell("long values", wanted_count == 6 + 3 * 5 + 256 + 70000 + 1 && has_wanted(&one, NULL));
}

/* ---- what is read ---- */

/* Of a buffer of 2 GiB two pages may be read: those that views refer to. Of another one none. */
static void few_pages(void) {
    const size_t size = (size_t)1 << 31, page = 4096;
    const int there = PROT_READ | PROT_WRITE;
    uint8_t *heap = mmap(NULL, size, PROT_NONE, MAP_PRIVATE | MAP_ANONYMOUS | MAP_NORESERVE, -1, 0);
    if (heap == MAP_FAILED || mprotect(heap + page, page, there) || mprotect(heap + size - page, page, there))
        abort();
    memset(heap + page, 'a', page);
    memset(heap + size - page, 'b', page);
    const struct codrask_bytes heaps[] = {{heap, size}, {heap, size}};
    const struct codrask_view all[] = {view(4096, "aaaa", 0, 4096), view(13, "bbbb", 0, (uint32_t)(size - 13)), view(5, "short", 0, 0),
                                       view(99, "null", 1, 0)};
    static const uint8_t valid[] = {1, 1, 1, 0};
    struct codrask_node one = values(CODRASK_UTF8_VIEW, all, COUNT(all), heaps, 2);
    want_rows(&one, valid);
    tell("a large buffer", has_wanted(&one, valid));
    munmap(heap, size);
}

/* ---- memory ---- */

/* As many values of almost 4 GiB as no address space has. */
static void no_memory(void) {
    enum { ROWS = 1 << 17 };
    static struct codrask_view views[ROWS];
    for (size_t i = 0; i < ROWS; i++)
        views[i] = view(UINT32_MAX, "aaaa", 0, 0);
    const struct codrask_bytes heap = {none, UINT32_MAX};
    struct codrask_node one = values(CODRASK_BINARY_VIEW, views, ROWS, &heap, 1);
    struct codrask_bytes made = {none, 7};
    tell("more than all memory", codrask_pickle(&one, NULL, &made) == CODRASK_MEMORY && made.bytes == none && made.count == 7);
}

/* ---- random tables ---- */

/* A byte for each row, out of the bits of a validity, in a block of just so many; or a null pointer. */
static uint8_t *valid_of(struct made *m, const struct codrask_node *node) {
    if (node->validity != CODRASK_BY_ARRAY)
        return NULL;
    uint8_t *valid = block(m, node->length);
    for (size_t i = 0; i < node->length; i++)
        valid[i] = node[1].bytes[(node[1].offset + i) / 8] >> (node[1].offset + i) % 8 & 1;
    return valid;
}

static void random_tables(void) {
    static struct made made;
    for (uint64_t seed = 1; seed <= 3000; seed++) {
        struct codrask_fault fault;
        state = seed;
        put_texts(&made, random_below(50));
        uint8_t *valid = valid_of(&made, made.nodes);
        want_rows(made.nodes, valid);
        tell("a random table", !codrask_check(made.nodes, made.count, &fault) && has_wanted(made.nodes, valid));
        let_go(&made);
    }
}

int main(void) {
    by_hand();
    junk_in_nulls();
    each_size();
    long_values();
    few_pages();
    no_memory();
    random_tables();
    printf("%d passed, %d failed\n", passed, failed);
    return failed != 0;
}
