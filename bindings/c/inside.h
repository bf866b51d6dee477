/* What the C files of the library share. Nothing here is for its users. */
#ifndef INSIDE_H
#define INSIDE_H

#include "codrask.h"

#include <stdbool.h>
#include <string.h>

_Static_assert(sizeof(size_t) == 8, "lengths have 64 bits");
_Static_assert(__BYTE_ORDER__ == __ORDER_LITTLE_ENDIAN__, "numbers stand in memory with their lowest byte first");

#pragma GCC visibility push(hidden)

enum {
    MOST_NODES = 4096,         /* of a table: codrask_check takes no more */
    DEEPEST = 64,              /* how deep an Arrow array that is read may be nested */
    MOST_VIEW_BUFFERS = 65536, /* of all arrays of views that are read into one table */
    MOST_ARRAYS = 65536,       /* to whose buffers lengths are told, also of columns that are passed over */
    MOST_NAME_BYTES = 1 << 22, /* of all names of a table */
    MOST_KEYS = 1 << 20        /* of the metadata of all arrays that are read into one table */
};

/* ---- budget.c ---- */

struct range {
    uintptr_t start, end;
};

/* What a call was given, and how many bytes it takes of that. */
struct budget {
    struct range *ranges;
    size_t count, room;
    size_t spent;
    bool only_spends; /* no range is kept */
    bool no_memory;
};

/* Bytes that were given, and how many are taken of them. */
void codrask_spend(struct budget *budget, const void *given, size_t size, size_t spent);

/* A node whose slices are all there. */
void codrask_spend_node(struct budget *budget, const struct codrask_node *node);

/* How many bytes may be taken: what the caller allows, else by what was given. Gives back the ranges. */
size_t codrask_most_bytes(struct budget *budget, const struct codrask_limits *limits);

size_t codrask_add(size_t one, size_t other);      /* SIZE_MAX where it is more */
size_t codrask_multiply(size_t one, size_t other); /* the same */

/* ---- to_arrow.c ---- */

enum { MOST_FORMAT = CODRASK_LARGE_VIEWS };

/* A schema that has nothing yet, and can be released. */
uint32_t codrask_open_schema(struct ArrowSchema *schema);

/* A block of zeroes that is given back with such a schema. */
void *codrask_schema_block(struct ArrowSchema *schema, size_t count, size_t width);

/* The first node of the array that a written schema tells of. */
size_t codrask_node_of(const struct ArrowSchema *schema);

/* ---- formats.c ---- */

enum layout { FLAT, VALUES, VIEWS, LISTS, LIST_VIEWS, FIXED_LISTS, RECORDS, CARRIED, NULLS, MAPS };

/* What a format says of an array. */
struct format {
    enum layout layout;
    uint32_t kind;     /* of its node; of what is carried, of the column in the record */
    size_t width;      /* how many bytes a number, an offset or a carried value has; 0 of truth values */
    uint32_t size;     /* of lists of one size; the width of carried values */
    int64_t buffers;   /* how many; of views the least number */
    int64_t children;  /* how many; -1 where any number is */
    bool may_be_codes; /* whether codes of a dictionary have it */
};

/* False where the format is not read. */
bool codrask_format_of(const char *text, struct format *format);

/* Reads decimal digits, of a number up to `most`: what follows them, or a null pointer where there is no such number. */
const char *codrask_read_digits(const char *text, size_t most, size_t *number);

/* ---- carried.c ---- */

/* What a record carries. What its name does not have is a null pointer. */
struct carried {
    struct codrask_bytes word, extension, metadata;
    struct format format; /* RECORDS, where the column has a format of its own: by its type, or since it carries another one */
    bool sorted;          /* of a map: its keys */
};

/* False where the format is not carried. */
bool codrask_is_carried_format(const char *text, struct format *format);

/* How many keys Arrow's metadata have, and the extension that they tell of: the first one. False where a size is negative, or a byte 0
 * stands in the name of the extension. */
int32_t codrask_count_keys(const char *metadata);
bool codrask_read_extension(const char *metadata, struct carried *carried);

/* Writes the extension as Arrow's metadata, where there is a place; how many bytes they have. */
size_t codrask_write_extension(const struct carried *carried, void *metadata);

/* Whether an array is carried under a name; and writes it, where there is a place: how many bytes it has. */
bool codrask_has_name(const struct ArrowSchema *schema);
size_t codrask_write_name(const struct ArrowSchema *schema, uint8_t *name);

/* What the name of a record says that carries a column. */
struct carried codrask_carried_of(const struct codrask_node *record);

/* Whether the column of such a record has the form that its word says, a text of its own; and the format of that word. */
bool codrask_has_form(const struct codrask_node *column, struct carried *carried, const char *word);

/* ---- read_arrow.c, read_rows.c ---- */

/* A block that a table has, before what is used of it. */
struct block {
    struct block *next, *padding;
};

struct table_memory {
    struct block *blocks;
    char *name;
    uint8_t *formats; /* one for each node */
};

/* What is still to be made of a node, when it is known how many bytes all of them have. */
enum work {
    NO_WORK,
    MAKE_VIEWS,   /* of values that lie between offsets */
    MAKE_HEAPS,   /* of views */
    MAKE_OFFSETS, /* of lists, the first of them 0 */
    MAKE_SIZES,   /* of lists that lie between offsets */
    MAKE_NAMES,   /* of the columns or of the elements */
    MAKE_WORD     /* the name that a column is carried under */
};

/* The nearest records or lists of one size with a bitmap that the rows of an array lie in, with no lists of other sizes between. */
struct enclosing {
    size_t node; /* its node, counted from 1; 0 of none */
    size_t each; /* how many rows lie in one of theirs */
};

struct task {
    enum work work;
    uint8_t form; /* one of codrask_format */
    bool nullable;
    struct enclosing in;
    const struct ArrowSchema *schema;
    const struct ArrowArray *array;
    const uint8_t *bitmap; /* none, or the byte that has the bit of the first row */
    size_t bit;
    const uint8_t *offsets;
    size_t width;
    const uint8_t *heap;
    int64_t base, end; /* where values or elements begin and end */
    int64_t heap_end;  /* where the heap ends, if that is told; else the last number */
};

/* A name that is chosen, its place among all that are, and the columns that have it: how many, and the last one. */
struct chosen {
    const char *name;
    size_t place, count, column;
};

/* The columns that are chosen of records, and the records that have these alone. */
struct choice {
    struct chosen chosen[MOST_NODES]; /* by their names; of equal ones the first tells of the columns */
    struct ArrowSchema schema, *schemas[MOST_NODES];
    struct ArrowArray array, *arrays[MOST_NODES];
    size_t columns[MOST_NODES]; /* where each of them stands among all columns */
    size_t lengths[MOST_NODES]; /* of each of all columns, the first length */
};

/* A table that is being made: a task for each node. */
struct reader {
    struct codrask_node *nodes;
    struct task *tasks;
    size_t count, room;
    size_t view_buffers, name_bytes, keys;
    struct table_memory *memory;
    struct codrask_fault fault;
    const struct ArrowSchema *refused; /* that of the array which the fault is of, if it is of one */
    struct choice *choice;             /* none, or that of the outermost records */
    const size_t *lengths;             /* none, or those of all buffers */
    size_t next_length;                /* the first one of the array that comes next */
    bool structs_alone;                /* of no array a row is looked at */
    bool lends;                        /* offsets are lent for codrask_passes: no views and numbers are made of them */
    bool cannot_lend;                  /* some of them cannot be */
};

extern const uint8_t codrask_nothing[64]; /* what an empty slice points at */

/* Tells a fault, and answers its number. */
uint32_t codrask_refuse(struct reader *reader, uint32_t number, size_t node, size_t place);

/* Offset `i` of a width, at any address. */
static inline int64_t codrask_offset_at(const uint8_t *offsets, size_t width, size_t i) {
    int32_t of_32;
    int64_t of_64;
    if (width == 4) {
        memcpy(&of_32, offsets + 4 * i, 4);
        return of_32;
    }
    memcpy(&of_64, offsets + 8 * i, 8);
    return of_64;
}

/* What a node whose task is not done yet is given, and has when it is. */
void codrask_spend_task(struct budget *budget, const struct codrask_node *node, const struct task *task);

/* Does all tasks, and counts the nulls. */
uint32_t codrask_make_rows(struct reader *reader);

/* A copy of a name, which has passed; and of the formats of all nodes. */
uint32_t codrask_keep_name(struct reader *reader, const char *name);
uint32_t codrask_keep_formats(struct reader *reader);

void codrask_free_memory(struct table_memory *memory);

/* Reads an Arrow array and checks it, without views and numbers that are made of its offsets where it can be known so. */
uint32_t codrask_check_read(const struct ArrowSchema *schema, const struct ArrowArray *array, const struct codrask_reading *how,
                            struct codrask_fault *fault);

/* ---- lengths.c ---- */

/* Chooses columns of records whose structs have passed. */
uint32_t codrask_choose_columns(struct reader *reader, const struct codrask_reading *how, const struct ArrowSchema *schema,
                                const struct ArrowArray *array);

/* Whether there are as many lengths as an array and all below it have buffers, and of each null pointer the length is 0. Where columns
 * are chosen it finds their lengths. */
bool codrask_match_lengths(struct reader *reader, const struct codrask_reading *how, const struct ArrowArray *array);

#pragma GCC visibility pop

#endif
