/* Columns that are chosen of an Arrow array by name, with lengths and without, and the format and the name of what is refused. The last
 * line is 'N passed, M failed'. */
#include "sized.h"

static const uint8_t second_null[] = {0xfb};
static const int64_t numbers[] = {1, 2, 3, 4, 5, 6, 7, 8, 9, 10};

/* ---- a choice of columns ---- */

/* Records of six columns, of which one is a union, which is not read, and two have one name; the last one has none. */
struct records {
    const void *bitmap[1], *number_buffers[2], *text_buffers[3], *union_buffers[2];
    struct ArrowArray number, text, either, *members[1], *columns[6], root;
    struct ArrowSchema schemas[6], member, *member_schemas[1], *column_schemas[6], root_schema;
};

enum { NUMBER, TEXT, EITHER_OF, TWIN, OTHER_TWIN, UNNAMED };

static struct records r;
static const int32_t text_ends[] = {0, 2, 3, 5, 6};

/* Of the records, the number, the text, the union and its member, two numbers, and a text. */
static const size_t record_lengths[] = {1, 0, 32, 0, 20, 6, 4, 16, 0, 32, 0, 32, 0, 32, 0, 20, 6};

static void make_records(void) {
    static const char *const names[] = {"number", "text", "either", "twin", "twin", NULL};
    static const char *const formats[] = {"l", "u", "+ud:0", "l", "l", "u"};
    r = (struct records){.bitmap = {second_null},
                         .number_buffers = {NULL, numbers},
                         .text_buffers = {NULL, text_ends, "abcdef"},
                         .union_buffers = {numbers, numbers}};
    r.number = array(4, 0, r.number_buffers, 2, NULL, 0);
    r.text = array(4, 0, r.text_buffers, 3, NULL, 0);
    r.either = array(4, 0, r.union_buffers, 2, r.members, 1);
    r.members[0] = &r.number, r.member = schema("l", 0, NULL, 0), r.member_schemas[0] = &r.member;
    struct ArrowArray *columns[] = {&r.number, &r.text, &r.either, &r.number, &r.number, &r.text};
    for (size_t i = 0; i < COUNT(columns); i++) {
        r.columns[i] = columns[i], r.column_schemas[i] = &r.schemas[i];
        r.schemas[i] = i == EITHER_OF ? schema(formats[i], 0, r.member_schemas, 1) : schema(formats[i], 0, NULL, 0);
        r.schemas[i].name = names[i];
    }
    r.root = array(3, 1, r.bitmap, 1, r.columns, 6);
    r.root_schema = schema("+s", ARROW_FLAG_NULLABLE, r.column_schemas, 6);
}

static struct codrask_reading choice(const char *const *names, size_t count) {
    return (struct codrask_reading){.columns = names, .column_count = count};
}

/* The records are read as records that have just these columns are read, with lengths and without. */
static void choose(const char *what, const char *const *names, const size_t *places, size_t count) {
    struct ArrowArray *columns[6], root = r.root;
    struct ArrowSchema *schemas[6], root_schema = r.root_schema;
    struct codrask_reading how = choice(names, count);
    struct codrask_table wanted;
    for (size_t i = 0; i < count; i++)
        columns[i] = r.columns[places[i]], schemas[i] = r.column_schemas[places[i]];
    root.children = columns, root_schema.children = schemas, root.n_children = root_schema.n_children = (int64_t)count;
    bool good = !codrask_table_from_arrow(&root_schema, &root, &wanted) && wanted.nodes[0].buffer_count == count
                && wanted.count == 2 + count && is_told(&r.root_schema, &r.root, how, is_same_table, &wanted, no_fault);
    how.lengths = record_lengths, how.length_count = COUNT(record_lengths);
    tell(what, good && is_told(&r.root_schema, &r.root, how, is_same_table, &wanted, no_fault));
    codrask_table_free(&wanted);
}

static void refuse_choice(const char *what, const char *const *names, size_t count, uint32_t number, size_t node, size_t place) {
    struct codrask_table table;
    struct codrask_reading how = choice(names, count);
    expect_fault(what, read_sized(&r.root_schema, &r.root, how, &table), number, node, place);
    how.lengths = record_lengths, how.length_count = COUNT(record_lengths);
    expect_fault(what, read_sized(&r.root_schema, &r.root, how, &table), number, node, place);
}

static void choices(void) {
    static const char *const names[] = {"text", "number", ""}, *const again[] = {"number", "number"}, *const many[4096] = {0};
    make_records();
    choose("columns in another order", names, (const size_t[]){TEXT, NUMBER, UNNAMED}, 3);
    choose("one column", names, (const size_t[]){TEXT}, 1);
    choose("a column twice", again, (const size_t[]){NUMBER, NUMBER}, 2);
    choose("no column", names, NULL, 0);
    refuse_choice("no such column", (const char *const[]){"text", "numbers"}, 2, CODRASK_UNKNOWN_FIELD, 0, 1);
    refuse_choice("two columns of one name", (const char *const[]){"twin"}, 1, CODRASK_UNKNOWN_FIELD, 0, 0);
    refuse_choice("a name that is a null pointer", (const char *const[]){"text", NULL}, 2, CODRASK_UNKNOWN_FIELD, 0, 1);
    refuse_choice("names that are a null pointer", NULL, 1, CODRASK_BAD_ARROW, 0, 0);
    refuse_choice("4096 names", many, COUNT(many), CODRASK_TOO_MANY_NODES, 0, 0);
    refuse_choice("a union", (const char *const[]){"text", "either"}, 2, CODRASK_BAD_ARROW, 3, 0);
    r.root_schema.format = "+us:0,1,2,3,4,5";
    refuse_choice("a choice of what is not read", names, 2, CODRASK_BAD_ARROW, 0, 0);
    tell("its format", told.format == r.root_schema.format && told.name == r.root_schema.name);
    r.root_schema.format = "+w:1", r.root.n_children = r.root_schema.n_children = 1;
    refuse_choice("a choice of what is no records", names, 2, CODRASK_BAD_ARROW, 0, 0);
    make_records();
    r.columns[TWIN] = NULL;
    refuse_choice("a column that is a null pointer", names, 2, CODRASK_BAD_ARROW, 0, 0);
    make_records();
    static const int32_t keys[] = {INT32_MAX}, less = -1;
    r.root_schema.metadata = (const char *)keys;
    refuse_choice("too many keys before a name that no column has", (const char *const[]){"no"}, 1, CODRASK_TOO_MANY_BYTES, 0, 0);
    r.root_schema.metadata = (const char *)&less;
    refuse_choice("keys that are fewer than none", (const char *const[]){"no"}, 1, CODRASK_BAD_ARROW, 0, 0);
    make_records();
    r.root.release = NULL;
    refuse_choice("records that were released", names, 2, CODRASK_RELEASED, 0, 0);
}

/* The lengths of columns that are passed over are counted, and are not looked at; each other one is. */
static void lengths_of_choices(void) {
    static const char *const names[] = {"text", "number"};
    static const size_t places[] = {0, 2, 4, 5};
    static const struct codrask_fault wanted[] = {
        {CODRASK_SHORT_BUFFER, 0, 0}, {CODRASK_SHORT_BUFFER, 3, 1}, {CODRASK_SHORT_BUFFER, 2, 1}, {CODRASK_BAD_START, 2, 2}};
    make_records();
    struct codrask_reading how = choice(names, 2);
    struct codrask_table table;
    size_t lengths[COUNT(record_lengths)];
    how.lengths = lengths, how.length_count = COUNT(lengths);
    for (size_t i = 0; i < COUNT(places); i++) {
        memcpy(lengths, record_lengths, sizeof lengths);
        lengths[places[i]]--;
        struct codrask_fault found = read_sized(&r.root_schema, &r.root, how, &table);
        expect_fault("a buffer of a column that is chosen", found, wanted[i].number, wanted[i].node, wanted[i].place);
    }
    static const size_t others[] = {6, 7, 9, 11, 13, 15, 16};
    memcpy(lengths, record_lengths, sizeof lengths);
    for (size_t i = 0; i < COUNT(others); i++)
        lengths[others[i]] = 0;
    expect_fault("buffers of other columns", read_sized(&r.root_schema, &r.root, how, &table), 0, 0, 0);
    codrask_table_free(&table);
    lengths[8] = 1;
    expect_fault("a null pointer there", read_sized(&r.root_schema, &r.root, how, &table), CODRASK_BAD_LENGTHS, 0, 0);
}

static const char *const text_and_number[] = {"text", "number"};

/* Whether the records are read where a column that they have beside these has just the lengths that are told. */
static void pass_over(const char *what, const size_t *lengths, size_t count, bool counted) {
    struct codrask_table table;
    struct codrask_reading how = choice(text_and_number, 2);
    expect_fault("without lengths", read_sized(&r.root_schema, &r.root, how, &table), 0, 0, 0);
    codrask_table_free(&table);
    how.lengths = lengths, how.length_count = count;
    expect_fault(what, read_sized(&r.root_schema, &r.root, how, &table), counted ? 0 : CODRASK_BAD_LENGTHS, 0, 0);
    if (counted)
        codrask_table_free(&table);
}

static const size_t without_member[] = {1, 0, 32, 0, 20, 6, 4, 16, 0, 32, 0, 32, 0, 20, 6},
                    without_union[] = {1, 0, 32, 0, 20, 6, 0, 32, 0, 32, 0, 20, 6};

static void passed_over(void) {
    make_records();
    r.either.n_buffers = -1;
    pass_over("buffers that are fewer than none", record_lengths, COUNT(record_lengths), false);
    r.either.n_buffers = 2, r.either.buffers = NULL;
    pass_over("no array of buffers", record_lengths, COUNT(record_lengths), false);
    make_records();
    r.either.children = NULL;
    pass_over("no array of children", record_lengths, COUNT(record_lengths), false);
    r.either.children = r.members, r.either.n_children = -1;
    pass_over("children that are fewer than none", without_member, COUNT(without_member), false);
    r.either.n_children = 0;
    pass_over("no children", without_member, COUNT(without_member), true);
    make_records();
    r.members[0] = NULL;
    pass_over("a child that is a null pointer", without_member, COUNT(without_member), false);
    r.members[0] = &r.either;
    pass_over("a column that has itself", record_lengths, COUNT(record_lengths), false);
}

/* A column that was taken out has no buffers, and its name is not looked at. */
static void taken_out(void) {
    static const char *const either[] = {"either"};
    struct codrask_table table;
    make_records();
    r.either.release = NULL;
    pass_over("a column that was taken out", without_union, COUNT(without_union), true);
    r.schemas[EITHER_OF].format = "l";
    expect_fault("and is chosen", read_sized(&r.root_schema, &r.root, choice(either, 1), &table), CODRASK_RELEASED, 2, 0);
    char *name = strcpy(malloc(7), "either");
    r.schemas[EITHER_OF].name = name, r.schemas[EITHER_OF].release = NULL;
    free(name);
    pass_over("with its schema", without_union, COUNT(without_union), true);
    expect_fault("and is chosen", read_sized(&r.root_schema, &r.root, choice(either, 1), &table), CODRASK_UNKNOWN_FIELD, 0, 0);
}

/* So many levels, and so many arrays, are counted; none of them has a buffer. */
static void most_passed_over(void) {
    static struct ArrowArray levels[64], *parts[64], wide, *many[65536];
    make_records();
    wide = array(0, 0, NULL, 0, NULL, 0);
    for (size_t i = 0; i < COUNT(levels); i++) {
        levels[i] = array(0, 0, NULL, 0, &parts[i], i + 1 < COUNT(levels));
        parts[i] = i + 1 < COUNT(levels) ? &levels[i + 1] : &wide;
    }
    r.columns[EITHER_OF] = &levels[0];
    pass_over("64 levels", without_union, COUNT(without_union), true);
    levels[63].n_children = 1;
    pass_over("more levels", without_union, COUNT(without_union), false);
    for (size_t i = 0; i < COUNT(many); i++)
        many[i] = &wide;
    levels[0].children = many, levels[0].n_children = 65536 - 7;
    pass_over("65536 arrays", without_union, COUNT(without_union), true);
    levels[0].n_children++;
    pass_over("one more", without_union, COUNT(without_union), false);
}

/* ---- many columns ---- */

enum { MANY = 2000 };

/* Records of many columns under names in no order, all chosen in another one. Each column is one number, at its own place. */
static struct {
    int64_t numbers[MANY];
    const void *buffers[2], *bitmap[1];
    struct ArrowArray each[MANY], *columns[MANY], root;
    struct ArrowSchema schemas[MANY], *column_schemas[MANY], root_schema;
    char texts[MANY][8];
    const char *names[MANY];
} m;

static void make_many(void) {
    m.buffers[1] = m.numbers;
    for (size_t i = 0; i < MANY; i++) {
        snprintf(m.texts[i], sizeof m.texts[i], "%zu", 1999 * i % MANY);
        m.each[i] = array(1, (int64_t)i, m.buffers, 2, NULL, 0), m.columns[i] = &m.each[i];
        m.schemas[i] = schema("l", 0, NULL, 0), m.column_schemas[i] = &m.schemas[i], m.schemas[i].name = m.texts[i];
        m.names[i] = m.texts[1111 * i % MANY];
    }
    m.root = array(1, 0, m.bitmap, 1, m.columns, MANY);
    m.root_schema = schema("+s", 0, m.column_schemas, MANY);
}

/* Where the one column of a name stands, by a plain loop; MANY of a name that none or several have. */
static size_t plain_place(const char *name) {
    size_t found = MANY, count = 0;
    for (size_t i = 0; i < MANY && name; i++)
        if (m.schemas[i].release && !strcmp(m.schemas[i].name ? m.schemas[i].name : "", name))
            found = i, count++;
    return count == 1 ? found : MANY;
}

/* Each name gives the column that a plain loop finds, or the first one that gives none is told. */
static void find_many(const char *what) {
    static size_t places[MANY];
    size_t refused = MANY;
    for (size_t i = MANY; i-- > 0;)
        if ((places[i] = plain_place(m.names[i])) == MANY)
            refused = i;
    struct codrask_table table;
    struct codrask_fault found = read_sized(&m.root_schema, &m.root, choice(m.names, MANY), &table);
    bool good = found.number == (refused < MANY ? CODRASK_UNKNOWN_FIELD : 0) && found.place == (refused < MANY ? refused : 0);
    for (size_t i = 0; good && refused == MANY && i < MANY; i++)
        good = table.nodes[1 + i].bytes == (const uint8_t *)&m.numbers[places[i]]
               && !memcmp(table.nodes[0].buffers[i].bytes, m.names[i], table.nodes[0].buffers[i].count);
    tell(what, good);
    if (!found.number)
        codrask_table_free(&table);
}

static void many_columns(void) {
    make_many();
    find_many("many columns");
    m.names[7] = m.names[1700] = m.names[900];
    find_many("three of them one");
    m.schemas[5].name = NULL, m.names[3] = "", m.names[MANY - 1] = "";
    find_many("one without a name, twice, and a name that no column has");
    make_many();
    m.schemas[1234].name = m.texts[77];
    find_many("one of two columns of one name, and of a name that no column has");
    make_many();
    m.names[1500] = NULL;
    find_many("a name that is a null pointer");
    m.names[1600] = NULL, m.schemas[1111 * 1400 % MANY].release = NULL;
    find_many("and before it that of a column whose schema was released");
    m.names[1300] = "1e3";
    find_many("and before it a name that no column has");
    m.names[0] = "";
    find_many("and an empty one");
}

/* ---- the format and the name of what is refused ---- */

static void expect_names(const char *what, uint32_t number, size_t node, const char *format, const char *name) {
    struct codrask_table table;
    struct codrask_reading how = {.limits = {0}};
    expect_fault(what, read_sized(&r.root_schema, &r.root, how, &table), number, node, 0);
    tell(what, told.format == format && told.name == name);
}

static void names_of_faults(void) {
    make_records();
    expect_names("a union", CODRASK_BAD_ARROW, 4, r.schemas[EITHER_OF].format, r.schemas[EITHER_OF].name);
    r.schemas[EITHER_OF].format = NULL;
    expect_names("no format", CODRASK_BAD_ARROW, 4, NULL, r.schemas[EITHER_OF].name);
    r.text.release = NULL;
    expect_names("an array that was released", CODRASK_RELEASED, 3, r.schemas[TEXT].format, r.schemas[TEXT].name);
    r.schemas[TEXT].release = NULL;
    expect_names("a schema that was released", CODRASK_RELEASED, 3, NULL, NULL);
    r.number.length = -1;
    expect_names("a negative length", CODRASK_BAD_ARROW, 2, r.schemas[NUMBER].format, r.schemas[NUMBER].name);
    r.columns[0] = NULL;
    expect_names("a column that is a null pointer", CODRASK_BAD_ARROW, 0, r.root_schema.format, r.root_schema.name);
    make_records();
    r.schemas[EITHER_OF].format = "+s", r.either.n_buffers = 1, r.either.null_count = 0;
    r.union_buffers[0] = second_null, r.text.null_count = 1;
    expect_names("a null count", CODRASK_BAD_NULL_COUNT, 3, r.schemas[TEXT].format, r.schemas[TEXT].name);
    make_records();
    struct codrask_table table;
    size_t lengths[COUNT(record_lengths)];
    memcpy(lengths, record_lengths, sizeof lengths);
    lengths[4]--;
    struct codrask_reading how = {.lengths = lengths, .length_count = COUNT(lengths), .columns = text_and_number, .column_count = 2};
    expect_fault("a short buffer", read_sized(&r.root_schema, &r.root, how, &table), CODRASK_SHORT_BUFFER, 2, 1);
    tell("of a column", told.format == r.schemas[TEXT].format && told.name == r.schemas[TEXT].name);
    how.length_count--;
    expect_fault("wrong lengths", read_sized(&r.root_schema, &r.root, how, &table), CODRASK_BAD_LENGTHS, 0, 0);
    tell("of all arrays", !told.format && !told.name);
    how.columns = (const char *const[]){"text", "no"};
    expect_fault("no column", read_sized(&r.root_schema, &r.root, how, &table), CODRASK_UNKNOWN_FIELD, 0, 1);
    tell("of none", !told.format && !told.name);
    struct codrask_reading few = {.limits = {1}, .columns = text_and_number, .column_count = 2};
    expect_fault("a limit", read_sized(&r.root_schema, &r.root, few, &table), CODRASK_TOO_MANY_BYTES, 0, 0);
    tell("of no array", !told.format && !told.name);
    expect_fault("no array", read_sized(&r.root_schema, NULL, few, &table), CODRASK_BAD_ARROW, 0, 0);
    tell("of none", !told.format && !told.name);
}

int main(void) {
    choices();
    lengths_of_choices();
    passed_over();
    taken_out();
    most_passed_over();
    many_columns();
    names_of_faults();
    printf("%d passed, %d failed\n", passed, failed);
    return failed != 0;
}
