/* Values between offsets, as views: each byte of a view is as a plain loop makes it, for values of each size before each rest of a heap
 * that is a block of just its length. Run it under the address sanitizer. The last line is 'N passed, M failed'. */
#include "arrow_by_hand.h"

enum { BEFORE = 3, MOST = 16, ROWS = 3 };

/* How a column is given: its format, and whether the length of each buffer is told. */
struct way {
    const char *format;
    bool sized;
};

static const struct way ways[] = {{"u", false}, {"Z", false}, {"z", true}, {"U", true}};

/* Reads byte lists or texts between these offsets, as 32 or as 64 bits. */
static uint32_t read_values(struct way way, const int64_t *offsets, int64_t rows, const uint8_t *heap, size_t size,
                            struct codrask_table *table) {
    int32_t small[8];
    for (int64_t i = 0; i <= rows; i++)
        small[i] = (int32_t)offsets[i];
    bool large = way.format[0] < 'a';
    const void *buffers[] = {NULL, large ? (const void *)offsets : small, heap};
    const size_t lengths[] = {0, (size_t)(rows + 1) * (large ? 8 : 4), size};
    struct ArrowSchema s = schema(way.format, 0, NULL, 0);
    struct ArrowArray a = array(rows, 0, buffers, 3, NULL, 0);
    if (way.sized)
        return codrask_table_from_arrow_sized(&s, &a, lengths, COUNT(lengths), table);
    return codrask_table_from_arrow(&s, &a, table);
}

/* Whether a view is that of the bytes from `start` on, where the buffer begins with those at `base`. */
static bool is_view(const struct codrask_view *view, const uint8_t *heap, size_t base, size_t start, size_t size) {
    uint8_t wanted[16] = {(uint8_t)size};
    for (size_t i = 0; i < size && i < (size > 12 ? 4 : 12); i++)
        wanted[4 + i] = heap[start + i];
    if (size > 12)
        wanted[12] = (uint8_t)(start - base);
    return !memcmp(view->bytes, wanted, sizeof wanted);
}

/* Whether three values of these sizes have their views, and a buffer up to the last long one. */
static bool has_views(struct way way, const size_t *sizes) {
    int64_t offsets[ROWS + 1] = {BEFORE};
    size_t end = BEFORE, last = BEFORE;
    for (size_t i = 0; i < ROWS; i++) {
        end += sizes[i];
        offsets[i + 1] = (int64_t)end;
        last = sizes[i] > 12 ? end : last;
    }
    uint8_t *heap = malloc(end);
    for (size_t i = 0; i < end; i++)
        heap[i] = (uint8_t)(i + 100);
    struct codrask_table table;
    bool good = !read_values(way, offsets, ROWS, heap, end, &table) && table.count == 1 && table.nodes->buffer_count == 1
                && table.nodes->buffers->bytes == heap + BEFORE && table.nodes->buffers->count == last - BEFORE;
    for (size_t i = 0; good && i < ROWS; i++)
        good = is_view(&table.nodes->views[i], heap, BEFORE, (size_t)offsets[i], sizes[i]);
    codrask_table_free(&table);
    free(heap);
    return good;
}

/* Each three sizes up to MOST. */
static void each_size(void) {
    for (size_t w = 0; w < COUNT(ways); w++) {
        bool good = true;
        for (size_t i = 0; good && i < (MOST + 1) * (MOST + 1) * (MOST + 1); i++) {
            const size_t sizes[] = {i % (MOST + 1), i / (MOST + 1) % (MOST + 1), i / (MOST + 1) / (MOST + 1)};
            good = has_views(ways[w], sizes);
        }
        tell(ways[w].format, good);
    }
}

/* Where offsets fall, that row and each that begins before the heap is astray, and those after it have their views. */
static void falling(void) {
    static const int64_t offsets[] = {4, 20, 7, 30, 31, 1, 40};
    uint8_t heap[40];
    for (size_t i = 0; i < sizeof heap; i++)
        heap[i] = (uint8_t)(i + 100);
    for (size_t w = 0; w < COUNT(ways); w++) {
        struct codrask_table table;
        bool good = !read_values(ways[w], offsets, 6, heap, sizeof heap, &table);
        for (size_t i = 0; good && i < 6; i++) {
            bool astray = !memcmp(table.nodes->views[i].bytes + 8, "\xff\xff\xff\xff", 4);
            bool in_order = offsets[i] >= 4 && offsets[i + 1] >= offsets[i];
            good = astray == !in_order
                   && (astray || is_view(&table.nodes->views[i], heap, 4, (size_t)offsets[i], (size_t)(offsets[i + 1] - offsets[i])));
        }
        good = good && table.nodes->buffers->count == 26;
        tell("offsets that fall", good);
        codrask_table_free(&table);
    }
}

int main(void) {
    each_size();
    falling();
    printf("%d passed, %d failed\n", passed, failed);
    return failed != 0;
}
