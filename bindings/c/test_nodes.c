/* Results of more nodes than a table may have: they are refused before anything is written or made plain, in little time and
 * memory, also where an array stands at more places than can be counted. The last line is 'N passed, M failed'. */
#include "by_hand.h"

#include <stdio.h>
#include <string.h>
#include <sys/resource.h>
#include <time.h>

enum { MOST_STEPS = 1024, PARENT = 2047 };

static int passed, failed;

static void tell(const char *what, size_t count, int good) {
    good ? passed++ : failed++;
    if (!good)
        printf("%s, %zu: not as wanted\n", what, count);
}

static const uint8_t letter[] = "a";
static const struct codrask_bytes one_name = {letter, 1};

/* Records under these names. */
static struct codrask_node records(size_t length, const struct codrask_bytes *names, size_t count) {
    struct codrask_node n = node(CODRASK_STRUCT, CODRASK_NON_NULLABLE, length);
    n.buffers = names;
    n.buffer_count = count;
    return n;
}

/* A step that adds an array to records as a column. */
static struct codrask_step with_column(size_t array, size_t column) {
    struct codrask_step s = step(CODRASK_WITH_COLUMN, array);
    s.other = column;
    s.name = letter;
    s.name_size = 1;
    return s;
}

/* What is answered where the array after so many steps is wanted, and its nodes, if it is written. */
static uint32_t answered(const struct codrask_column *columns, size_t count, const struct codrask_step *steps, size_t step_count,
                         size_t *nodes) {
    size_t wanted = count + step_count - 1;
    struct codrask_columns made = CODRASK_NO_COLUMNS;
    struct codrask_run_fault fault;
    struct codrask_fault other;
    uint32_t number = codrask_run(columns, count, steps, step_count, &wanted, 1, &made, &fault);
    *nodes = number ? 0 : made.columns[0].count;
    if (number ? made.count != 0 || fault.part != CODRASK_IN_RESULT || fault.which != 0 || fault.node != 0 || fault.place != 0
               : codrask_check(made.columns[0].nodes, *nodes, &other) != 0)
        number = UINT32_MAX;
    codrask_columns_free(&made);
    return number;
}

/* Records of one column of numbers are added to themselves: each step doubles the nodes, 2 at first. */
static void doubled(void) {
    static struct codrask_step steps[MOST_STEPS];
    static const size_t counts[] = {12, 13, 17, 20, 23, 30, 62, 63, 64, 65, 100, MOST_STEPS};
    int32_t all[] = {7, 8, 9};
    struct codrask_node t[] = {records(3, &one_name, 1), numbers(CODRASK_I32, 3, SLICE(all))};
    struct codrask_column columns[] = {{t, 2}, {t + 1, 1}};
    size_t nodes;
    for (size_t i = 0; i < MOST_STEPS; i++)
        steps[i] = with_column(i, i);
    for (size_t count = 1; count <= 11; count++)
        tell("records added to themselves", count, answered(columns, 1, steps, count, &nodes) == 0 && nodes == (size_t)2 << count);
    for (size_t i = 0; i < COUNT(counts); i++)
        tell("records added to themselves", counts[i], answered(columns, 1, steps, counts[i], &nodes) == CODRASK_TOO_MANY_NODES);
    steps[0] = with_column(0, 0);
    for (size_t i = 1; i < 11; i++)
        steps[i] = with_column(i + 1, i + 1);
    steps[11] = with_column(12, 1);
    tell("4096 nodes", 11, answered(columns, 2, steps, 11, &nodes) == 0 && nodes == 4096);
    tell("a node more", 12, answered(columns, 2, steps, 12, &nodes) == CODRASK_TOO_MANY_NODES);
}

/* Columns with a validity by array have two nodes each. */
static void with_validities(void) {
    static struct codrask_bytes names[PARENT];
    static struct codrask_node t[1 + 2 * PARENT];
    int32_t all[] = {7, 8, 9};
    uint8_t bits[] = {5};
    size_t nodes;
    t[0] = records(3, names, PARENT);
    for (size_t i = 0; i < PARENT; i++) {
        names[i] = one_name;
        t[1 + 2 * i] = numbers(CODRASK_I32, 3, SLICE(all));
        t[1 + 2 * i].validity = CODRASK_BY_ARRAY;
        t[2 + 2 * i] = truths(3, bits);
    }
    struct codrask_node plain = numbers(CODRASK_I32, 3, SLICE(all));
    struct codrask_column columns[] = {{t, COUNT(t)}, {&plain, 1}, {t + 1, 2}};
    struct codrask_step alone = with_column(0, 1), both = with_column(0, 2);
    tell("4096 nodes, half of them validities", 1, answered(columns, 3, &alone, 1, &nodes) == 0 && nodes == 4096);
    tell("a validity more", 1, answered(columns, 3, &both, 1, &nodes) == CODRASK_TOO_MANY_NODES);
}

/* Lists that need more elements than can be counted cannot be made plain; where no table has room for their kind, that is told. */
static void overflowing(void) {
    static struct codrask_step steps[64];
    const uint32_t size = UINT32_MAX;
    uint8_t codes[] = {0, 0};
    struct codrask_node t[] = {records(2, &one_name, 1), node(CODRASK_DICTIONARY, 0, 2), numbers(CODRASK_U8, 2, SLICE(codes)),
                               node(CODRASK_FIXED_SIZE_LIST, 0, 1), node(CODRASK_FIXED_SIZE_LIST, 0, size),
                               node(CODRASK_STRUCT, 0, (size_t)size * size)};
    t[3].size = t[4].size = size;
    struct codrask_column column = {t, COUNT(t)};
    size_t nodes;
    for (size_t i = 0; i < COUNT(steps); i++)
        steps[i] = with_column(i, i);
    tell("lists past all counts", 1, answered(&column, 1, steps, 1, &nodes) == CODRASK_OVERFLOW);
    tell("lists past all counts", 9, answered(&column, 1, steps, 9, &nodes) == CODRASK_OVERFLOW);
    tell("lists past all counts", 64, answered(&column, 1, steps, 64, &nodes) == CODRASK_TOO_MANY_NODES);
}

/* The kilobytes that the process had at most. */
static long most_memory(void) {
    struct rusage usage;
    getrusage(RUSAGE_SELF, &usage);
    return usage.ru_maxrss;
}

int main(void) {
    long before = most_memory();
    clock_t start = clock();
    doubled();
    with_validities();
    overflowing();
    double seconds = (double)(clock() - start) / CLOCKS_PER_SEC;
    long more = most_memory() - before;
    tell("seconds", (size_t)seconds, seconds < 60);
    /* (sanitizers keep what was given back) */
    tell("kilobytes", (size_t)more, more < 256 * 1024);
    printf("%.3f seconds, %ld KiB more\n", seconds, more);
    printf("%d passed, %d failed\n", passed, failed);
    return failed != 0;
}
