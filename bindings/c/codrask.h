/* Columns from outside, tested by proved code.
 *
 * A column is a table of nodes. Each node is an array, and it stands before the nodes of its parts. codrask_check tells
 * whether a table is a column, and if not, its first fault: which node, and which row or position. What the calls of the first part
 * answer is proved; docs/FROM_C.md says what is trusted of their caller. The second part reads and writes the structs of Arrow, of
 * arrays and of streams: it makes tables, and leaves every test of a column to the first.
 *
 * For machines of 64 bits whose numbers stand in memory with the lowest byte first, and for gcc or clang. */
#ifndef CODRASK_H
#define CODRASK_H

#include <stdbool.h>
#include <stddef.h>
#include <stdint.h>

#ifdef __cplusplus
extern "C" {
#endif

/* ---- tables ---- */

/* Some bytes. The pointer is never null, also where the count is 0. */
struct codrask_bytes {
    const uint8_t *bytes;
    size_t count;
};

/* The view of a text or of a byte list, as Arrow's view layouts have it. */
struct codrask_view {
    uint8_t bytes[16];
};

/* What a node is. */
enum codrask_kind {
    CODRASK_BOOL = 0, /* bytes, offset: truth values, one to a bit */
    CODRASK_U8 = 1,   /* bytes: numbers, the lowest byte first */
    CODRASK_U16 = 2,
    CODRASK_U32 = 3,
    CODRASK_U64 = 4,
    CODRASK_I8 = 5,
    CODRASK_I16 = 6,
    CODRASK_I32 = 7,
    CODRASK_I64 = 8,
    CODRASK_UTF8_VIEW = 9,        /* views, buffers: texts */
    CODRASK_BINARY_VIEW = 10,     /* views, buffers: byte lists */
    CODRASK_DICTIONARY = 11,      /* parts: codes, values */
    CODRASK_FIXED_SIZE_LIST = 12, /* size; parts: elements. For Arrow, buffers: none, or the name of the elements */
    CODRASK_LIST_VIEW = 13,       /* parts: elements, offsets, sizes. For Arrow, buffers as above */
    CODRASK_STRUCT = 14           /* buffers: a name for each column; parts: columns */
};

/* What offsets stand for in a node of a table that is given to codrask_passes. They have 32 bits and a sign, or by the next number 64. */
enum codrask_offset_kind {
    CODRASK_UTF8_OFFSETS = 15,   /* bytes: offsets, one more than there are rows; buffers: that of the texts, from the first one on */
    CODRASK_BINARY_OFFSETS = 17, /* the same of byte lists */
    CODRASK_STARTS = 19,         /* bytes: offsets, one for each number, which is how far it lies past the first one */
    CODRASK_SIZES = 21           /* bytes: offsets, one more than there are numbers: each but the first, less the one before it */
};

/* Which rows are null. */
enum codrask_validity {
    CODRASK_NON_NULLABLE = 0, /* none can be. A dictionary has this: its codes tell of nulls */
    CODRASK_ALL_VALID = 1,    /* none is */
    CODRASK_ALL_INVALID = 2,  /* every row is */
    CODRASK_BY_ARRAY = 3      /* those at which an array is false: the first of the node's parts */
};

/* An array. What its kind does not use is not looked at; a slice is a pointer that is never null, and a count. */
struct codrask_node {
    uint32_t kind;
    uint32_t validity;
    uint32_t size; /* how many rows each list of one size has */
    size_t length; /* how many rows the array has */
    size_t offset; /* the bit of the bytes at which truth values begin */
    const uint8_t *bytes;
    size_t byte_count;
    const struct codrask_view *views;
    size_t view_count;
    const struct codrask_bytes *buffers;
    size_t buffer_count;
};

/* The first fault of a table. */
struct codrask_fault {
    uint32_t number; /* 0 where there is none; 1 to 23 as codrask_fault_name tells; 32 to 36 of the table itself; from 64 on of Arrow */
    size_t node;     /* the node that has it, counted from 0 */
    size_t place;    /* the row that has it; of CODRASK_OUT_OF_BOUNDS the end of a list past its elements, or the code; of CODRASK_NOT_UTF8
                      * of records the name that is no text, and of CODRASK_BAD_ARROW of records the name with a byte 0, both counted
                      * from 0; else 0 */
};

enum codrask_number {
    CODRASK_MEMORY = 1,
    CODRASK_MISMATCHED_TYPES = 2,
    CODRASK_LENGTH_MISMATCH = 3,
    CODRASK_NULLABILITY_MISMATCH = 4,
    CODRASK_OUT_OF_BOUNDS = 5,
    CODRASK_NEGATIVE = 6,
    CODRASK_OVERFLOW = 7,
    CODRASK_UNKNOWN_FIELD = 10,
    CODRASK_NOT_UTF8 = 13,
    CODRASK_BAD_BUFFER = 14,
    CODRASK_BAD_START = 15,
    CODRASK_BAD_END = 16,
    CODRASK_BAD_PREFIX = 17,
    CODRASK_DEGENERATE_ELEMENTS = 23,
    CODRASK_UNKNOWN_KIND = 32,   /* no kind has the number */
    CODRASK_BAD_VALIDITY = 33,   /* no validity has the number, or a dictionary has one of its own */
    CODRASK_MISSING_NODES = 34,  /* the nodes that follow are fewer arrays than the node has parts */
    CODRASK_NOT_ONE_ARRAY = 35,  /* the nodes are no array, or several */
    CODRASK_TOO_MANY_NODES = 36, /* more than 4096 */
    CODRASK_BAD_MODE = 37,       /* of a step: its kind has no such mode */
    CODRASK_TOO_MANY_STEPS = 38, /* more than 1024 */
    /* of Arrow: the calls of the second part alone have them */
    CODRASK_BAD_ARROW = 64,        /* not a schema and an array that are read here, or a column that is not written */
    CODRASK_NOT_END_TO_END = 65,   /* lists that offsets alone cannot tell: one does not begin where the one before it ends */
    CODRASK_TOO_MANY_BYTES = 66,   /* more than the limit: codrask_limits */
    CODRASK_TOO_MANY_BUFFERS = 67, /* more than 65536 buffers of views */
    CODRASK_TOO_DEEP = 68,         /* more than 64 levels */
    CODRASK_RELEASED = 69,         /* a struct whose release is null: it was released, or never made */
    CODRASK_BAD_NULL_COUNT = 70,   /* a null count that is neither -1 nor the number of nulls */
    CODRASK_UNEXPECTED_NULL = 71,  /* a null where the schema lets no row be null */
    CODRASK_BAD_FLAGS = 72,        /* flags that are none of codrask_arrow_flags */
    CODRASK_SHORT_BUFFER = 73,     /* a buffer has fewer bytes than its array needs */
    CODRASK_BAD_LENGTHS = 74       /* lengths that are not one for each buffer, or of a null pointer one that is not 0 */
};

/* The version of the proved calls and of the table: 1. */
uint32_t codrask_version(void);

/* Answers 0 where the nodes are a column, else the number of the first fault, which is then told in *fault: the nodes are
 * read from the last to the first. CODRASK_MEMORY may come in place of any answer but of CODRASK_TOO_MANY_NODES, of
 * CODRASK_NOT_ONE_ARRAY where there is no node, and of CODRASK_UNKNOWN_KIND of the last node. With 0 and CODRASK_MEMORY node and place
 * are 0. Nothing is kept and nothing changed. */
uint32_t codrask_check(const struct codrask_node *nodes, size_t node_count, struct codrask_fault *fault);

/* Answers 1 where it is known that the nodes are a column, and 0 where codrask_check is to be asked, which names the fault if there is
 * one. No row is copied. Here alone a node may have a kind of codrask_offset_kind: with 1, the offsets of values lie in order within
 * their bytes, and whichever views are made of the values, and whichever integers of the numbers, codrask_check answers 0 to that
 * table. 0 comes as well where memory is refused, where a null row has a view that is none or a code that names no value, and where
 * lists have offsets and sizes of other types than int32_t or int64_t, both the same. */
uint32_t codrask_passes(const struct codrask_node *nodes, size_t node_count);

/* ---- steps ---- */

/* The nodes of a column. */
struct codrask_column {
    const struct codrask_node *nodes;
    size_t count;
};

/* What a step appends to the list of arrays. */
enum codrask_step_kind {
    CODRASK_SLICE = 0,          /* array, start, end: the rows from start up to end */
    CODRASK_TAKE = 1,           /* array, other: the rows at the indices that another array of integers holds */
    CODRASK_FILTER = 2,         /* array, other: the rows at which another array of truth values is true */
    CODRASK_MASK = 3,           /* array, other: the rows, null where another array of truth values is false */
    CODRASK_CONCAT = 4,         /* arrays: the rows of several arrays */
    CODRASK_CANONICAL = 5,      /* array: the rows in plain layout */
    CODRASK_REBUILD = 6,        /* array, mode: lists, laid out anew */
    CODRASK_NARROW = 7,         /* array: numbers in the narrowest type that has them */
    CODRASK_PROJECT = 8,        /* array, names: the columns of these names */
    CODRASK_WITH_COLUMN = 9,    /* array, name, other: records with one column more */
    CODRASK_REMOVE_COLUMN = 10, /* array, name: records without a column */
    CODRASK_PUSH_VALIDITY = 11, /* array, mode: the nulls of records in their columns; mode 1 where no record is null any more */
    CODRASK_PACK = 12,          /* array: the rows in the one form that they alone determine, with no byte of other rows */
    CODRASK_FIELD = 13          /* array, name: a column of records, null also where the record is */
};

/* The modes of CODRASK_REBUILD. */
enum codrask_rebuild_mode {
    CODRASK_ZERO_COPY_TO_LIST = 0,
    CODRASK_TRIM_ELEMENTS = 1,
    CODRASK_MAKE_EXACT = 2,
    CODRASK_OVERLAP_COMPRESSION = 3
};

/* A step. An array is named by its position: the columns, then what each step before appended. What the kind does not use is
 * not looked at; no pointer is null. */
struct codrask_step {
    uint32_t kind;
    uint32_t mode;
    size_t array;
    size_t other;
    size_t start;
    size_t end;
    const size_t *arrays;
    size_t array_count;
    const struct codrask_bytes *names;
    size_t name_count;
    const uint8_t *name;
    size_t name_size;
};

/* Columns that a call wrote. */
struct codrask_columns {
    const struct codrask_column *columns;
    size_t count;
};

/* Which part of a run has a fault. */
enum codrask_part {
    CODRASK_NO_PART = 0,
    CODRASK_IN_TABLE = 1,
    CODRASK_IN_STEP = 2,
    CODRASK_IN_RESULT = 3
};

/* Why a run is refused. */
struct codrask_run_fault {
    uint32_t number; /* 0 where it is not, 1 where memory was refused: all else is 0 then */
    uint32_t part;
    size_t which; /* the table, the step or the result, counted from 0 */
    size_t node;  /* the node of the table, else 0 */
    size_t place; /* the row that has it; of CODRASK_OUT_OF_BOUNDS the position that lies past a length; of CODRASK_NOT_UTF8 of records, and
                   * of names that are chosen, the name that is no text, counted from 0; else 0 */
};

/* Runs steps on columns, and writes the arrays at the wanted positions, in plain layouts: neither a dictionary nor a constant.
 * Answers 0 where that is done; *made is then the caller's, to be given back by codrask_columns_free. Equal columns are written as
 * equal bytes: no bit is set before the first truth value or after the last one, and what a node does not use is 0 or empty. Else the
 * answer is the number of the first fault, which *fault tells; *made is then as it was. With 0 and CODRASK_MEMORY all else in *fault is
 * 0. On the way in *made is CODRASK_NO_COLUMNS. */
uint32_t codrask_run(const struct codrask_column *columns, size_t column_count, const struct codrask_step *steps, size_t step_count,
                     const size_t *wanted, size_t wanted_count, struct codrask_columns *made, struct codrask_run_fault *fault);

/* No columns. A pointer is never null, also where nothing is there. */
extern const struct codrask_columns CODRASK_NO_COLUMNS;

/* Gives back what codrask_run wrote. */
void codrask_columns_free(struct codrask_columns *made);

/* The name of a number, as "OutOfBounds"; "" of a number that names nothing. */
const char *codrask_fault_name(uint32_t number);

/* ---- Arrow's C Data Interface ---- */

/* The structs of Arrow's C Data Interface, over arrays of its Columnar Format 1.4. */
#ifndef ARROW_C_DATA_INTERFACE
#define ARROW_C_DATA_INTERFACE

#define ARROW_FLAG_DICTIONARY_ORDERED 1
#define ARROW_FLAG_NULLABLE 2
#define ARROW_FLAG_MAP_KEYS_SORTED 4

struct ArrowSchema {
    const char *format;
    const char *name;
    const char *metadata;
    int64_t flags;
    int64_t n_children;
    struct ArrowSchema **children;
    struct ArrowSchema *dictionary;
    void (*release)(struct ArrowSchema *);
    void *private_data;
};

struct ArrowArray {
    int64_t length;
    int64_t null_count;
    int64_t offset;
    int64_t n_buffers;
    int64_t n_children;
    const void **buffers;
    struct ArrowArray **children;
    struct ArrowArray *dictionary;
    void (*release)(struct ArrowArray *);
    void *private_data;
};

#endif

/* Columns whose values the layer has no type for are carried as their bytes, under the format that they came with: floats, decimals,
 * dates, times, durations, intervals, byte lists of one size, nulls, maps. Such a column is a record of one column whose name no Arrow
 * column can have: a byte 0, then the format, as "\0f". The records have the nulls. Their column is never nullable, and has
 *
 *   of 1, 2, 4 or 8 bytes: unsigned numbers of that width;
 *   of another width: lists of that size (CODRASK_FIXED_SIZE_LIST) of CODRASK_U8, which are never nullable either;
 *   of nulls, "n": lists of size 0, and every record is null (CODRASK_ALL_INVALID);
 *   of maps, "+m", or where their keys are sorted "+m sorted": list views of records of keys and values.
 *
 * The values are opaque: rows of them are cut, taken, masked and joined, and there is no arithmetic and no comparison. Names belong to the
 * data type of records, so columns of two formats are of two types: joined they are refused, and so they are as numbers,
 * indices, codes, offsets or sizes.
 *
 * An extension (ARROW:extension:name in the metadata of a schema) stands in the same name, behind the format: a byte 0 and its name; and
 * where it has metadata (ARROW:extension:metadata), a byte 0 and these. Where the layer has a type for the column, the name has no
 * format ("\0\0geoarrow.wkb\0{}"): the records are never null, and their column is what it is without the extension. So it is of a
 * dictionary whose codes are ordered, whose word is "ordered" in place of a format; made plain, it goes out as plain values, and as Arrow
 * has an order of codes alone, without that flag. Such records may carry others that carry; an array that is written has one extension at
 * most. */

/* Whether a node is such a record. What its word says is not looked at. */
bool codrask_is_carried(const struct codrask_node *node);

/* The format of such a record and how many bytes it has: no byte 0 ends it. "+m sorted", "ordered" and "" are words of their own, as
 * above. A null pointer of another node. */
const char *codrask_carried_format(const struct codrask_node *node, size_t *size);

/* How many bytes a call may take: reading, those of the slices of the table, each as often as a node has it; writing, those of
 * the buffers that are made, and of the slices of the table. Where `bytes` is 0 or the limits are a null pointer, they are 8 MiB, or
 * 8 times the distinct bytes that the call is given, whichever is more. More is CODRASK_TOO_MANY_BYTES, at the first node at which
 * it is more, before memory is taken for it. The names of a table have at most 4 MiB, whatever the limits are. */
struct codrask_limits {
    size_t bytes;
};

/* A table over the buffers of an Arrow array, which have to outlive it. It has copies of all names: the schema, and the structs of
 * the array, need not. */
struct codrask_table {
    struct codrask_node *nodes;
    size_t count;
    void *memory; /* what the table itself has */
};

/* Makes a table of an Arrow array, and believes that each buffer is as long as the array needs, and a text's last offset that of its
 * bytes: Arrow's structs tell no length but that of the buffers of views. codrask_read_arrow_sized is told them.
 *
 * Read are booleans ("b"), the eight types of integers, texts and byte lists by offsets ("u", "U", "z", "Z") or by views ("vu", "vz"),
 * lists ("+l", "+L", "+vl", "+vL", "+w:N"), structs ("+s"), dictionaries, and what is carried (above), at any offset. Which column it
 * is, or which fault it has, codrask_check tells. Rows may be null where the schema says so, and nowhere else, but in a column of nulls
 * ("n"), which is what it is. What texts and lists by offsets do not refer to, before the first and after the last, is not in the table.
 *
 * Answers 0, or the number of a refusal, which *fault has with its node: of structs, formats and metadata the first one that the array
 * has, or would have, in the table; of buffers, rows and the names of children that of the array itself, which stands behind the record
 * of an extension, and of codes behind their dictionary. Nothing is to be given back then. First, from the first node to the last:
 *
 * CODRASK_RELEASED: the release of a schema or an array is null.
 * CODRASK_BAD_ARROW: a null pointer in place of a struct; a format that is another one (unions, runs) or none; a negative count, length
 *   or offset; more rows than 63 bits tell, or than all memory has; other numbers of buffers or children than the format has; no array
 *   of buffers or children; a map whose entries are not records of two columns; a dictionary in the schema or in the array alone, or
 *   with codes whose format is no integer; in the metadata a negative size, or a name of an extension that has a byte 0.
 * CODRASK_TOO_DEEP: the array is nested deeper than 64 levels.
 * CODRASK_TOO_MANY_NODES: the table would have more than 4096 nodes; told of node 0, as codrask_check does.
 * CODRASK_TOO_MANY_BUFFERS: all arrays of views have more than 65536 buffers.
 * CODRASK_TOO_MANY_BYTES: of the names, to which formats and extensions of what is carried belong; or metadata of more than 2^20 keys.
 *
 * Then CODRASK_TOO_MANY_BYTES by the limits. Then, from the first node to the last:
 *
 * CODRASK_BAD_NULL_COUNT: the null count is neither -1 nor the number of bits that are not set, of the rows of the array itself; of
 *   rows that are not read, since what the array stands in has fewer, any number may be null. Without a bitmap none is; of nulls ("n")
 *   all are.
 * CODRASK_UNEXPECTED_NULL: a row that is read is null where the schema is not nullable: that of the array, or for the values of a
 *   dictionary that of their codes. It may be null where the records or the list of one size that it lies in are. The place is the row.
 * CODRASK_BAD_ARROW: a buffer of views has a negative size; the place is the buffer, the first of them being 0.
 * CODRASK_OVERFLOW: a text by offsets has 2 GiB or more; the place is the row.
 *
 * CODRASK_MEMORY may come in place of any answer. */
uint32_t codrask_read_arrow(const struct ArrowSchema *schema, const struct ArrowArray *array, const struct codrask_limits *limits,
                            struct codrask_table *table, struct codrask_fault *fault);

/* The same without limits of the caller's, and without telling the node. */
uint32_t codrask_table_from_arrow(const struct ArrowSchema *schema, const struct ArrowArray *array, struct codrask_table *table);

/* The name of the column itself, as the schema has it, or "". */
const char *codrask_table_name(const struct codrask_table *table);

/* The formats that say of the same values how they lie. */
enum codrask_format {
    CODRASK_NO_FORMAT = 0,     /* of all other arrays; of these, of which none is known */
    CODRASK_SMALL_OFFSETS = 1, /* "u", "z", "+l" */
    CODRASK_LARGE_OFFSETS = 2, /* "U", "Z", "+L" */
    CODRASK_SMALL_VIEWS = 3,   /* "vu", "vz", "+vl" */
    CODRASK_LARGE_VIEWS = 4    /* "+vL"; of texts and byte lists as CODRASK_SMALL_VIEWS */
};

/* The format with which each node came in, as many as the table has nodes: codrask_write_arrow_as takes them. They go with the table. */
const uint8_t *codrask_table_formats(const struct codrask_table *table);

/* Gives back what a table has. */
void codrask_table_free(struct codrask_table *table);

/* Makes the table without limits of the caller's, checks it, and gives it back. */
uint32_t codrask_check_arrow(const struct ArrowSchema *schema, const struct ArrowArray *array, struct codrask_fault *fault);

/* How codrask_read_arrow_sized reads an array. Limits of 0, and each pointer that is null, ask for nothing; a count is then 0. */
struct codrask_reading {
    struct codrask_limits limits;
    /* How many bytes each buffer has: an array's buffers, then its children's, then its dictionary's. With a null pointer it is 0. */
    const size_t *lengths;
    size_t length_count;
    /* Names: of the outermost records these columns alone are read, in this order. */
    const char *const *columns;
    size_t column_count;
};

/* Why an array is not read. */
struct codrask_arrow_fault {
    struct codrask_fault fault;
    const char *format; /* that of the schema of the array which is refused, good as long as the schema is; or a null pointer */
    const char *name;   /* the same */
};

/* Makes a table as codrask_read_arrow does, but as `how` says; a null pointer asks for nothing. Where lengths are told, each slice is
 * tested against its buffer's before a byte of it is read, so that neither this call nor codrask_check reads past one. The bytes of texts
 * and byte lists end where their buffer does: codrask_check tells the first row that passes it, as CODRASK_BAD_START or
 * CODRASK_BAD_END. A buffer must have the bytes of the rows that are read, and may have more.
 *
 * What is refused above is refused here too, and in that order. Where columns are chosen, these come before all:
 *
 * CODRASK_RELEASED, CODRASK_BAD_ARROW, CODRASK_TOO_MANY_NODES, CODRASK_TOO_MANY_BYTES: of the structs and the metadata of the outermost
 *   array, as above, with all its columns. Also CODRASK_BAD_ARROW where it is no records, or `columns` is a null pointer; and
 *   CODRASK_TOO_MANY_NODES where 4096 columns are chosen.
 * CODRASK_UNKNOWN_FIELD, of node 0: no column has the name, or several have it; the place is that of the name. A column whose schema was
 *   released has no name.
 *
 * A column that is passed over has no node, and its structs are not looked at, but to count its buffers. Where lengths are told, all
 * above comes first that the structs alone tell: the first list but for rows past all memory. Then:
 *
 * CODRASK_BAD_LENGTHS, of node 0: there is not one length for each buffer of each array, also of columns that are passed over (what was
 *   released has none); a null pointer has a length other than 0; `lengths` is a null pointer, and there are some; or the arrays of a
 *   column that is passed over cannot be counted: a null pointer, a negative count, more than 64 levels, or 65536 arrays in all.
 *
 * Then, from the first node to the last:
 *
 * CODRASK_SHORT_BUFFER: a bitmap, truth values, numbers, offsets, sizes of lists or views have fewer bytes than the rows that are read
 *   need; the sizes of the buffers of views are fewer than these; then, such a buffer has fewer bytes than its size says. The place is
 *   the number of the buffer in its array, and the node that of the array; where it has a dictionary, that of the codes.
 * CODRASK_BAD_ARROW: rows past all memory.
 *
 * Then CODRASK_TOO_MANY_BYTES by the limits, and all that follows it above. The fault has the format and the name of the array's schema,
 * but with CODRASK_MEMORY, CODRASK_TOO_MANY_NODES, CODRASK_TOO_MANY_BYTES, CODRASK_UNKNOWN_FIELD and CODRASK_BAD_LENGTHS, where that
 * schema was released, and where the outermost schema or array is a null pointer. */
uint32_t codrask_read_arrow_sized(const struct ArrowSchema *schema, const struct ArrowArray *array, const struct codrask_reading *how,
                                  struct codrask_table *table, struct codrask_arrow_fault *fault);

/* The same with lengths, and nothing else that is asked for; a null pointer is no length. The node is not told. */
uint32_t codrask_table_from_arrow_sized(const struct ArrowSchema *schema, const struct ArrowArray *array, const size_t *lengths,
                                        size_t count, struct codrask_table *table);

/* Makes the table with lengths, as above, checks it, and gives it back. */
uint32_t codrask_check_arrow_sized(const struct ArrowSchema *schema, const struct ArrowArray *array, const size_t *lengths, size_t count,
                                   struct codrask_fault *fault);

/* How codrask_write_arrow writes. */
enum codrask_arrow_flags {
    CODRASK_BY_VIEWS = 0,  /* texts and byte lists as "vu", "vz", lists as "+vL" */
    CODRASK_BY_OFFSETS = 1 /* as "u", "z" or, where they are large, "U", "Z"; as "+l" or "+L" */
};

/* Writes a column as an Arrow array that has blocks of its own, to be given back by its release, as its schema is by its own. The
 * table is checked first, and copied. What is carried goes out in its format, with its extension; maps by offsets, whichever the flags
 * are. The column has a name, or where that is a null pointer, "". Answers 0, or the number of the
 * first of these, and *fault has it; nothing is to be released then:
 *
 * CODRASK_BAD_FLAGS: flags that are no sum of codrask_arrow_flags.
 * CODRASK_TOO_MANY_BYTES: the table has more bytes than the limits allow.
 * The first fault of the table: what codrask_check tells of it.
 * Then, array by array:
 * CODRASK_OVERFLOW: a length, an offset or the end of a list has more than 63 bits; the size of lists of one size, a view, or the end of
 *   a map, more than 31. The place is the row, or 0.
 * CODRASK_NOT_END_TO_END: lists are to be written by offsets, and that of the place does not begin where the one before it ends.
 * CODRASK_BAD_ARROW: codes, offsets, sizes or a validity are themselves a dictionary, or a name has a byte 0; but where a record of one
 *   column has a name that begins so, and has not the form that its word says: another kind or width, a column that is nullable, a word
 *   that is none, a row of "n" that is not null, which is then the place.
 * CODRASK_TOO_MANY_BYTES: more than the limits allow would be written.
 *
 * CODRASK_MEMORY may come in place of any answer. */
uint32_t codrask_write_arrow(const struct codrask_node *nodes, size_t node_count, uint32_t flags, const char *name,
                             const struct codrask_limits *limits, struct ArrowSchema *schema, struct ArrowArray *array,
                             struct codrask_fault *fault);

/* The same, where each node has a format: texts, byte lists and lists are written with theirs, and by the flags where it is
 * CODRASK_NO_FORMAT; of other nodes, and of the lists of maps, it says nothing. A null pointer has none at all. What small offsets or the
 * small views of lists cannot count, past 31 bits, is written by the large ones. Lists that have offsets are refused as
 * CODRASK_NOT_END_TO_END as above. Refused first is, as CODRASK_BAD_FLAGS, a number that is none of codrask_format, at its node. */
uint32_t codrask_write_arrow_as(const struct codrask_node *nodes, size_t node_count, const uint8_t *formats, uint32_t flags,
                                const char *name, const struct codrask_limits *limits, struct ArrowSchema *schema,
                                struct ArrowArray *array, struct codrask_fault *fault);

/* The same of a table that has passed: to which codrask_check answered 0, or which codrask_run wrote, and in which nothing has changed
 * since, as in memory of the caller's that nobody else writes to. It is not tested again, nor copied for that. Of such a table a node with
 * all its parts is one too. Any other table is read past its slices: nobody sees that. A table without nodes, and one of more than 4096,
 * is refused as above. */
uint32_t codrask_write_passed(const struct codrask_node *nodes, size_t node_count, const uint8_t *formats, uint32_t flags,
                              const char *name, const struct codrask_limits *limits, struct ArrowSchema *schema, struct ArrowArray *array,
                              struct codrask_fault *fault);

/* The formats of what a run wrote: of the same columns, steps and positions, to which codrask_run answered 0. Of each column there are as
 * many as it has nodes, or a null pointer; so there is room for those of each column that was written.
 *
 * A slice, the rows of a take, a filter or a mask, what is made plain, packed, or has other nulls, and a column of records keep them at
 * every depth; what is joined has those of the first. Lists that were rebuilt have none themselves. Answers 0, or CODRASK_MEMORY. */
uint32_t codrask_run_formats(const struct codrask_column *columns, const uint8_t *const *formats, size_t column_count,
                             const struct codrask_step *steps, size_t step_count, const size_t *wanted,
                             const struct codrask_columns *made, uint8_t *const *made_formats);

/* The same as codrask_write_arrow without a name and without limits of the caller's. */
uint32_t codrask_to_arrow(const struct codrask_node *nodes, size_t node_count, uint32_t flags, struct ArrowSchema *schema,
                          struct ArrowArray *array, struct codrask_fault *fault);

/* ---- Arrow's C Stream Interface ---- */

#ifndef ARROW_C_STREAM_INTERFACE
#define ARROW_C_STREAM_INTERFACE

struct ArrowArrayStream {
    int (*get_schema)(struct ArrowArrayStream *, struct ArrowSchema *out);
    int (*get_next)(struct ArrowArrayStream *, struct ArrowArray *out);
    const char *(*get_last_error)(struct ArrowArrayStream *);
    void (*release)(struct ArrowArrayStream *);
    void *private_data;
};

#endif

/* The numbers that the calls for streams alone have. */
enum codrask_stream_number {
    CODRASK_EMPTY_INPUT = 11,      /* no column */
    CODRASK_STREAM_FAILED = 80,    /* the stream itself answers an error */
    CODRASK_DIFFERING_SCHEMAS = 81 /* a column that has not the schema of the first one */
};

/* A stream that is read a batch at a time. The caller sets the pointer to the stream, and all else to zero:
 * struct codrask_stream in = {.stream = &stream}. The stream, the schema and the present batch are given back by codrask_stream_free,
 * also where something was refused. */
struct codrask_stream {
    struct ArrowArrayStream *stream;
    struct ArrowSchema schema;          /* of all batches: asked for once, by the first call */
    struct ArrowArray array;            /* the present batch, or none */
    struct codrask_table table;         /* the same over the buffers of the array; without a node where there is none */
    size_t batches;                     /* how many were read; also the number, counted from 0, of a batch that is refused */
    int error;                          /* what the stream answered where it failed itself, else 0 */
    const char *message;                /* what the stream says of that, or "" */
    struct codrask_arrow_fault refused; /* what was refused, else a number 0 */
    uint32_t state;                     /* of the call alone */
};

/* Gives back the batch before, and reads the next one as codrask_read_arrow_sized does: with the lengths of its buffers, where they are
 * known, or some columns alone. Which column it is, or which fault it has, codrask_check tells. Answers 0 with a table, or at the end
 * of the stream 0 with a table without nodes, and so ever after. Or the number of a refusal, which *fault has: there is no batch then,
 * no callback of the stream is called any more, and each further call answers the same. By the first call alone:
 *
 * CODRASK_BAD_ARROW: the pointer to the stream is null.
 * CODRASK_RELEASED: the release of the stream is null.
 * CODRASK_BAD_ARROW: another callback of the stream is null.
 * CODRASK_STREAM_FAILED: the stream has no schema to give; `error` and `message` have what it answered.
 * CODRASK_RELEASED: the release of the schema is null.
 *
 * By each call:
 *
 * CODRASK_STREAM_FAILED: the stream fails, as above.
 * What codrask_read_arrow_sized refuses, with its node, place, format and name.
 *
 * To keep a batch, take `array` and `table` out, and set the release of the one to null and the other to zero. */
uint32_t codrask_next_batch(struct codrask_stream *stream, const struct codrask_reading *how, struct codrask_arrow_fault *fault);

/* Gives back what a stream has, and the stream: each once, also where it is called again. All is zero then. */
void codrask_stream_free(struct codrask_stream *stream);

/* Makes a stream that hands out columns one after another, as a producer of Arrow does. All are written before, each as
 * codrask_write_arrow writes it by these flags, this name and these limits; so the tables need not outlive the call. The stream is the
 * consumer's, who may release it at any time: what it handed out stays.
 *
 * Answers 0, or a number that *fault has with the column, its node and place; nothing is to be released then:
 *
 * CODRASK_EMPTY_INPUT: there is no column, so no schema.
 * Then, column by column:
 * What codrask_write_arrow refuses of it.
 * CODRASK_DIFFERING_SCHEMAS: another schema than the first column has. The node is the first array whose format, name, metadata, flags,
 *   number of children or dictionary differs.
 *
 * CODRASK_MEMORY may come in place of any answer. Of the stream, get_schema fails with ENOMEM where memory is refused; else nothing
 * fails. */
uint32_t codrask_write_stream(const struct codrask_column *columns, size_t count, uint32_t flags, const char *name,
                              const struct codrask_limits *limits, struct ArrowArrayStream *stream, struct codrask_run_fault *fault);

/* Makes such a stream of arrays that codrask_write_arrow_as, or a call like it, wrote before, each with its schema: so columns that have
 * passed, or have formats, go out as they are. Answers 0 where all of them, schemas too, are the stream's from then on; their release is
 * null. Else CODRASK_EMPTY_INPUT, CODRASK_DIFFERING_SCHEMAS as above, or CODRASK_MEMORY, which has no place; all stays the caller's then. */
uint32_t codrask_stream_written(struct ArrowSchema *schemas, struct ArrowArray *arrays, size_t count, struct ArrowArrayStream *stream,
                                struct codrask_run_fault *fault);

/* ---- Python ---- */

/* Writes the rows of a node of texts or of byte lists as a pickle of Python's, of protocol 3, so that `pickle.loads` makes all of them
 * at once: a list of `str` or of `bytes`, and of None where a row is null. That is where `valid` has a byte 0, of a byte for each row;
 * where it is a null pointer none is.
 *
 * The node stands in a table that has passed, as codrask_write_passed takes it, or has some of such a node's views and as many rows; and
 * what `valid` says is what the validity says of these rows. That is not tested: any other node is read past its slices. Read are the
 * kind, the length and the views of the node, and of its buffers the bytes to which views of rows that are not null refer; its parts
 * are not.
 *
 * Answers 0, and *made is then the caller's, to be given back by codrask_pickle_free; or CODRASK_MEMORY, also where the pickle would have
 * more bytes than a block can, and *made is then as it was. */
uint32_t codrask_pickle(const struct codrask_node *node, const uint8_t *valid, struct codrask_bytes *made);

/* Gives back what codrask_pickle wrote; where the count is 0, nothing. */
void codrask_pickle_free(struct codrask_bytes *made);

#ifdef __cplusplus
}
#endif

#endif
