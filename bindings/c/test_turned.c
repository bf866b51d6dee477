/* Random columns pass, and a run writes them again in plain layouts, with the same rows. With one byte or one number of each
 * turned, a table has a fault, and a run tells the same, or it is a column of which every row is read without a bad access: run
 * it under the address sanitizer. The last line is 'N passed, M failed'. */
#include "reader.h"
#include "turned.h"

#include <stdio.h>

static size_t passed, failed;

static void tell(const char *what, uint64_t seed, bool good) {
    good ? passed++ : failed++;
    if (!good)
        printf("seed %llu: %s\n", (unsigned long long)seed, what);
}

/* A run of no step writes the column again: the same rows, or the same fault. */
static void write_again(uint64_t seed, const struct codrask_fault *fault) {
    static const struct codrask_step none;
    struct codrask_column column = {made.nodes, made.count};
    struct codrask_columns written = CODRASK_NO_COLUMNS;
    struct codrask_run_fault told;
    size_t wanted = 0;
    uint32_t number = codrask_run(&column, 1, &none, 0, &wanted, 1, &written, &told);
    if (fault->number) {
        tell("the fault of a run is another one", seed, number == fault->number && told.part == CODRASK_IN_TABLE && told.which == 0
                                                            && told.node == fault->node && told.place == fault->place);
        return;
    }
    struct codrask_fault other;
    bool good = number == 0 && written.count == 1 && codrask_check(written.columns[0].nodes, written.columns[0].count, &other) == 0;
    tell("a column is not written again", seed, good && read_all(written.columns[0].nodes) == read_all(made.nodes));
    codrask_columns_free(&written);
}

int main(void) {
    size_t tables = 0, faults = 0, kinds[65] = {0};
    for (state = 1; tables < 1000;) {
        uint64_t seed = state + 1;
        tables++;
        struct codrask_fault fault;
        state = seed;
        put_column(&made, 1 + random_below(12), 0);
        if (codrask_check(made.nodes, made.count, &fault)) {
            failed++;
            printf("seed %llu: %s at node %zu, place %zu\n", (unsigned long long)seed, codrask_fault_name(fault.number), fault.node, fault.place);
        } else {
            passed++;
            read_all(made.nodes);
            write_again(seed, &fault);
            turn();
            uint32_t number = codrask_check(made.nodes, made.count, &fault);
            if (number) {
                faults++;
                kinds[number]++;
            } else if (made.nodes[0].length < 1000000) {
                read_all(made.nodes);
            }
            if (made.nodes[0].length < 1000000)
                write_again(seed, &fault);
            passed++;
        }
        let_go(&made);
        state = seed + 977;
    }
    printf("%zu of the turned tables have a fault:", faults);
    for (uint32_t k = 0; k < 65; k++)
        if (kinds[k])
            printf(" %s %zu", codrask_fault_name(k), kinds[k]);
    printf("\n%zu passed, %zu failed\n", passed, failed);
    return failed != 0;
}
