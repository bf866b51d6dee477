/* Random columns, written as Arrow arrays and read again: the rows are the same, and every block is given back once. With one
 * byte or number of each turned: a fault, or again the same rows. Run it under the address sanitizer. The last line is
 * 'N passed, M failed'. */
#include "reader.h"
#include "turned.h"

#include <stdio.h>

static size_t written, not_end_to_end, refused;

/* Whether an array is read as a column with these rows, also where its children were taken out before. */
static bool is_read_as(struct ArrowSchema *schema, struct ArrowArray *array, uint64_t rows) {
    struct codrask_table table;
    struct codrask_fault fault = {0, 0, 0};
    bool same = !codrask_table_from_arrow(schema, array, &table);
    if (same) {
        same = !codrask_check(table.nodes, table.count, &fault) && read_all(table.nodes) == rows;
        codrask_table_free(&table);
    }
    return same;
}

/* Gives all back: a child by itself, after its parent, where there is one. */
static void give_back(struct ArrowSchema *schema, struct ArrowArray *array) {
    struct ArrowArray child = {.release = NULL};
    if (array->n_children) {
        child = *array->children[0];
        array->children[0]->release = NULL;
    }
    array->release(array);
    schema->release(schema);
    if (child.release)
        child.release(&child);
}

/* Writes the table by these flags and reads it again, where it is a column. */
static bool there_and_back(uint32_t flags) {
    struct codrask_fault fault, other;
    struct ArrowSchema schema;
    struct ArrowArray array;
    uint32_t number = codrask_check(made.nodes, made.count, &fault);
    uint32_t answer = codrask_to_arrow(made.nodes, made.count, flags, &schema, &array, &other);
    if (answer) {
        refused++;
        not_end_to_end += answer == CODRASK_NOT_END_TO_END;
        bool own =
            answer == CODRASK_BAD_ARROW || answer == CODRASK_OVERFLOW || (answer == CODRASK_NOT_END_TO_END && flags == CODRASK_BY_OFFSETS);
        bool same = other.number == number && other.node == fault.node && other.place == fault.place;
        return !schema.release && !array.release && other.number == answer && (number ? same : own);
    }
    written++;
    bool same = !number && is_read_as(&schema, &array, read_all(made.nodes));
    give_back(&schema, &array);
    return same && !array.release && !schema.release;
}

static size_t passed, failed;

static void expect(const char *what, uint64_t seed, bool good) {
    good ? passed++ : failed++;
    if (!good)
        printf("%s, seed %llu\n", what, (unsigned long long)seed);
}

int main(void) {
    for (uint64_t seed = 1; seed <= 1000; seed++) {
        state = 977 * seed;
        put_column(&made, 1 + random_below(12), 0);
        expect("by views", seed, there_and_back(CODRASK_BY_VIEWS));
        expect("by offsets", seed, there_and_back(CODRASK_BY_OFFSETS));
        turn();
        if (made.nodes[0].length < 1000000) {
            expect("turned, by views", seed, there_and_back(CODRASK_BY_VIEWS));
            expect("turned, by offsets", seed, there_and_back(CODRASK_BY_OFFSETS));
        }
        let_go(&made);
    }
    printf("%zu written, %zu refused, of which %zu are lists that do not lie end to end\n", written, refused, not_end_to_end);
    printf("%zu passed, %zu failed\n", passed, failed);
    return failed != 0;
}
