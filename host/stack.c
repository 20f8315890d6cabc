/* The stack of each call: a sheet is put to it on a stack of its own, painted before the call; what is no longer paint was used. Two paints,
 * so that a byte that happens to equal the one differs from the other. Counted from the caller's frame to the deepest byte written.
 *
 *   stack [FILE..]    the sheets below, then the sheets in the files, of which the greatest is told
 *
 * Prints bytes for each and the greatest; the status is 0 only if every sheet got the number that it is to get and the greatest is within what the
 * header says to reserve. */
#include <stdio.h>
#include <stdlib.h>
#include <string.h>
#include <ucontext.h>

#include "../include/juzontefa.h"

#define STACK (1u << 20)
#define LONGEST 65535

/* The imports and their measure read schema sheets; then come those that read field sheets, and the two conversions, which read none. */
enum call {
    IMPORT, IMPORT_WITH_ORDER, MEASURE_IMPORT, EXPORT, EXPORT_WITH_ORDER, STRICT_EXPORT, MEASURE_EXPORT, PLAIN_FORM, PAGE, ROUND_TRIP,
    ROUND_TRIP_WITH_ORDER, STRICT_ROUND_TRIP, UNDERLYING_PHYSICAL_TYPE, TO_STORAGE, TO_STORAGE_RECURSIVE, INNER_DTYPE, GET_CHILD, TO_PHYSICAL_TYPE, IS_NESTED, CONTAINS_DICTIONARY,
    FROM_INTEGER_TYPE, FROM_PRIMITIVE_TYPE, CALLS
};
static const char *const names[CALLS] = {
    "import", "import_with_order", "measure_import", "export", "export_with_order", "strict_export", "measure_export", "plain_form", "page", "round_trip",
    "round_trip_with_order", "strict_round_trip", "underlying_physical_type", "to_storage", "to_storage_recursive", "inner_dtype", "get_child", "to_physical_type", "is_nested",
    "contains_dictionary", "from_integer_type", "from_primitive_type"
};

static uint8_t stack[STACK] __attribute__((aligned(4096)));
static uint8_t sheet[LONGEST + 2];
static uint8_t out[4][1u << 19];
static size_t size, room;
/* of get_child and the conversions */
static uint64_t place;
/* the byte order of the calls that take one, and of the metadata that the schema sheets below are built with */
static uint64_t big;
static enum call called;
static uint8_t *frame;
static uint64_t number;
static size_t greatest[CALLS];
static ucontext_t here, there;

static void call(void)
{
    frame = __builtin_frame_address(0);
    switch (called) {
    case IMPORT: number = juzontefa_import(sheet, size, out[0], room).number; break;
    case IMPORT_WITH_ORDER: number = juzontefa_import_with_order(sheet, size, big, out[0], room).number; break;
    case MEASURE_IMPORT: number = juzontefa_measure_import(sheet, size, big).number; break;
    case EXPORT: number = juzontefa_export(sheet, size, out[0], room).number; break;
    case EXPORT_WITH_ORDER: number = juzontefa_export_with_order(sheet, size, big, out[0], room).number; break;
    case STRICT_EXPORT: number = juzontefa_strict_export(sheet, size, big, out[0], room).number; break;
    case MEASURE_EXPORT: number = juzontefa_measure_export(sheet, size, big).number; break;
    case PLAIN_FORM: number = juzontefa_plain_form(sheet, size, out[0], room).number; break;
    case PAGE: number = juzontefa_page(sheet, size, out[0], room).number; break;
    case ROUND_TRIP: number = juzontefa_round_trip(sheet, size, out[0], room, out[1], room, out[2], room, out[3], room).number; break;
    case ROUND_TRIP_WITH_ORDER:
        number = juzontefa_round_trip_with_order(sheet, size, big, out[0], room, out[1], room, out[2], room, out[3], room).number;
        break;
    case STRICT_ROUND_TRIP:
        number = juzontefa_strict_round_trip(sheet, size, big, out[0], room, out[1], room, out[2], room, out[3], room).number;
        break;
    case UNDERLYING_PHYSICAL_TYPE: number = juzontefa_underlying_physical_type(sheet, size, out[0], room).number; break;
    case TO_STORAGE: number = juzontefa_to_storage(sheet, size, out[0], room).number; break;
    case TO_STORAGE_RECURSIVE: number = juzontefa_to_storage_recursive(sheet, size, out[0], room).number; break;
    case INNER_DTYPE: number = juzontefa_inner_dtype(sheet, size, out[0], room).number; break;
    case GET_CHILD: number = juzontefa_get_child(sheet, size, place, out[0], room).number; break;
    case TO_PHYSICAL_TYPE: number = juzontefa_to_physical_type(sheet, size).number; break;
    case IS_NESTED: number = juzontefa_is_nested(sheet, size).number; break;
    case CONTAINS_DICTIONARY: number = juzontefa_contains_dictionary(sheet, size).number; break;
    case FROM_INTEGER_TYPE: number = juzontefa_from_integer_type(place, out[0], room).number; break;
    default: number = juzontefa_from_primitive_type(place, out[0], room).number;
    }
}

static size_t used_with(uint8_t paint)
{
    memset(stack, paint, sizeof stack);
    if (getcontext(&there) != 0) abort();
    there.uc_stack.ss_sp = stack;
    there.uc_stack.ss_size = sizeof stack;
    there.uc_link = &here;
    makecontext(&there, call, 0);
    if (swapcontext(&here, &there) != 0) abort();
    uint8_t *deepest = stack;
    while (*deepest == paint) deepest++;
    return (size_t)(frame - deepest);
}

/* The last order to put to a call: those that take none get little-endian sheets alone. */
static uint64_t last_order(enum call which)
{
    switch (which) {
    case IMPORT_WITH_ORDER: case MEASURE_IMPORT: case EXPORT_WITH_ORDER: case STRICT_EXPORT: case MEASURE_EXPORT: case ROUND_TRIP_WITH_ORDER:
    case STRICT_ROUND_TRIP: return JUZONTEFA_BIG_ENDIAN;
    default: return JUZONTEFA_LITTLE_ENDIAN;
    }
}

/* The stack of a call for the sheet at hand, without room for the answer and with room; the number is that with room. */
static size_t used(enum call which)
{
    size_t most = 0;
    const size_t rooms[] = { 0, sizeof *out };
    called = which;
    for (int i = 0; i < 2; i++) {
        room = rooms[i];
        const uint8_t paints[] = { 0x5a, 0xa5 };
        for (int j = 0; j < 2; j++) {
            size_t bytes = used_with(paints[j]);
            if (bytes > most) most = bytes;
        }
    }
    if (most > greatest[which]) greatest[which] = most;
    return most;
}

static void put(size_t times, const char *line)
{
    size_t length = strlen(line);
    for (; times > 0; times--, size += length) {
        if (size + length > LONGEST) abort();
        memcpy(sheet + size, line, length);
    }
}

/* As many of the line as the sheet has room for, `rest` bytes left. */
static void fill(const char *line, size_t rest)
{
    put((LONGEST - rest - size) / strlen(line), line);
}

/* ── schema sheets */

#define LEAF "67 69 0 ~ 0 0\n"
#define LIST "2b6c 70 2 ~ 1 0\n"

static void one_leaf(void) { put(1, "67 7065616b 2 ~ 0 0\n"); }
static void a_list(void) { put(1, LIST LEAF); }
/* A count or length of metadata, in the order at hand. */
static void put_word(uint32_t word)
{
    char text[9];
    for (int i = 0; i < 4; i++)
        snprintf(text + 2 * i, 3, "%02x", (unsigned)(word >> 8 * (big ? 3 - i : i) & 255));
    put(1, text);
}
static void extension(void)
{
    put(1, "69 7472616365 3 ");
    put_word(1);
    put_word(20);
    put(1, "4152524f573a657874656e73696f6e3a6e616d65"); /* ARROW:extension:name = x */
    put_word(1);
    put(1, "78 0 1\n75 - 2 ~ 0 0\n");
}
static void a_struct(void)
{
    put(1, "2b73 - 0 ~ 4600 0\n");
    put(4600, LEAF);
}
static void levels(void)
{
    put(31, LIST);
    put(1, LEAF);
}
static void dictionaries(void)
{
    put(31, "69 70 2 ~ 0 1\n");
    put(1, LEAF);
}
static void skipped(void)
{
    put(16, LIST);
    put(15, "67 70 2 ~ 1 0\n");
    put(1, LEAF);
}
static void pairs(void)
{
    char text[32];
    put(31, LIST);
    put(1, "67 69 0 ");
    put_word(3100); /* pairs: keys of two bytes, in descending order, no values */
    for (int i = 3099; i >= 0; i--) {
        put_word(2);
        snprintf(text, sizeof text, "%02x%02x", 48 + i / 64, 48 + i % 64);
        put(1, text);
        put_word(0);
    }
    put(1, " 0 0\n");
}
static void unions(void)
{
    put(31, "2b75643a30 70 2 ~ 1 0\n");
    put(1, LEAF);
}
static void too_deep(void)
{
    fill(LIST, sizeof LEAF - 1);
    put(1, LEAF);
}
static void too_deep_and_broken(void) { fill(LIST, 0); }

/* ── field sheets */

#define FIELD_LEAF "14 0 0 ~ ~ 69 0 ~ 0\n"
#define FIELD_LIST "27 0 0 ~ ~ 70 1 ~ 1\n"
#define BARE_LEAF "14 0 0 ~ ~ ~ ~ ~ 0\n"
#define BARE_LIST "27 0 0 ~ ~ ~ ~ ~ 1\n"

static void field_leaf(void) { put(1, "14 0 0 ~ ~ 7065616b 1 ~ 0\n"); }
static void field_list(void) { put(1, FIELD_LIST FIELD_LEAF); }
static void field_extension(void) { put(1, "37 0 0 78 ~ 7472616365 1 6d=31 1\n32 2 1 ~ ~ ~ ~ ~ 1\n25 0 0 ~ ~ ~ ~ ~ 0\n"); }
static void field_struct(void)
{
    put(1, "30 0 0 ~ ~ - 0 ~ 3200\n");
    put(3200, FIELD_LEAF);
}
static void field_levels(void)
{
    put(31, FIELD_LIST);
    put(1, FIELD_LEAF);
}
static void field_unions(void)
{
    put(31, "41 0 0 ~ ~ 70 1 ~ 1\n");
    put(1, FIELD_LEAF);
}
static void field_dictionaries(void)
{
    put(1, "32 2 0 ~ ~ 70 1 ~ 1\n");
    put(30, "32 2 0 ~ ~ ~ ~ ~ 1\n");
    put(1, BARE_LEAF);
}
/* a chain of so many takes as many levels */
static void field_extensions(void)
{
    put(1, "37 0 0 78 ~ 70 1 ~ 1\n");
    put(31, "37 0 0 78 79 ~ ~ ~ 1\n");
    put(1, BARE_LEAF);
}
/* an extension over each list */
static void field_both(void)
{
    put(31, "37 0 0 78 79 70 1 ~ 1\n" BARE_LIST);
    put(1, "37 0 0 78 79 70 1 ~ 1\n" BARE_LEAF);
}
/* the values of a dictionary under an extension */
static void field_skipped(void)
{
    put(16, FIELD_LIST);
    put(1, "37 0 0 78 ~ 70 1 ~ 1\n32 2 0 ~ ~ ~ ~ ~ 1\n" BARE_LIST);
    put(13, FIELD_LIST);
    put(1, FIELD_LEAF);
}
static void field_pairs(void)
{
    char text[32];
    put(31, FIELD_LIST);
    put(1, "37 0 0 78 79 69 0 "); /* 3,000 pairs: keys of two bytes, no values */
    for (int i = 0; i < 3000; i++) {
        snprintf(text, sizeof text, "%s%02x%02x=", i ? "," : "", 48 + i / 64, 48 + i % 64);
        put(1, text);
    }
    put(1, " 1\n" BARE_LEAF);
}
static void field_too_deep(void)
{
    fill(FIELD_LIST, sizeof FIELD_LEAF - 1);
    put(1, FIELD_LEAF);
}
static void field_too_deep_and_broken(void) { fill(FIELD_LIST, 0); }

struct shape {
    const char *what;
    void (*build)(void);
    uint64_t number;
    /* the calls that have another number, a bit for each: 15 */
    uint32_t undefined;
};

#define NO(call) (1u << call)
/* what is no list, and what has no child inside extensions */
#define NO_LIST NO(INNER_DTYPE)
#define NO_CHILD (NO(INNER_DTYPE) | NO(GET_CHILD))
#define NO_CHANGE (NO(UNDERLYING_PHYSICAL_TYPE) | NO(TO_STORAGE_RECURSIVE))

static const struct shape schemas[] = {
    { "one leaf", one_leaf, 0, 0 },
    { "a list", a_list, 0, 0 },
    { "dictionary with extension", extension, 0, 0 },
    { "struct of 4,600", a_struct, 0, 0 },
    { "32 levels by lists", levels, 0, 0 },
    { "32 levels by unions", unions, 0, 0 },
    { "32 levels by dictionaries", dictionaries, 0, 0 },
    { "32 levels, 15 of them never visited", skipped, 0, 0 },
    { "32 levels, 3,100 metadata pairs at the deepest", pairs, 0, 0 },
    { "4,093 levels, refused with 3", too_deep, 3, 0 },
    { "4,093 levels and no leaf, refused with 2", too_deep_and_broken, 2, 0 },
};

static const struct shape fields[] = {
    { "one leaf", field_leaf, 0, NO_CHILD },
    { "a list", field_list, 0, 0 },
    { "dictionary under an extension", field_extension, 0, NO_CHILD },
    { "struct of 3,200", field_struct, 0, NO_LIST },
    { "32 levels by lists", field_levels, 0, 0 },
    { "32 levels by unions without ids", field_unions, 0, NO_LIST | NO_CHANGE },
    { "32 levels by dictionaries", field_dictionaries, 0, NO_CHILD },
    { "32 levels by extensions", field_extensions, 0, NO_CHILD },
    { "32 levels by lists, each under an extension", field_both, 0, NO_LIST },
    { "32 levels, 15 of them never visited", field_skipped, 0, 0 },
    { "32 levels, 3,000 pairs and an extension at the deepest", field_pairs, 0, 0 },
    { "3,274 levels, refused with 3", field_too_deep, 3, 0 },
    { "3,274 levels and no leaf, refused with 2", field_too_deep_and_broken, 2, 0 },
};

/* A shape put to a call, in each order that it takes; how often it got another number than it is to get. */
static int measure_shape(const char *heading, const struct shape *shape, enum call which)
{
    int wrong = 0;
    size_t most = 0;
    for (big = 0; big <= last_order(which); big++) {
        size = 0;
        put(1, heading);
        shape->build();
        size_t bytes = used(which);
        if (bytes > most) most = bytes;
        if (number != (shape->undefined & NO(which) ? 15 : shape->number)) {
            printf("wrong: %s of %s: number %llu\n", names[which], shape->what, (unsigned long long)number);
            wrong++;
        }
    }
    printf("%7zu  %-24s  %s\n", most, names[which], shape->what);
    return wrong;
}

/* The shapes put to the calls from `first` to `last`; how many got another number than they are to get. */
static int measure(const char *heading, const struct shape *shapes, size_t count, enum call first, enum call last)
{
    int wrong = 0;
    for (size_t i = 0; i < count; i++)
        for (enum call which = first; which <= last; which++)
            wrong += measure_shape(heading, &shapes[i], which);
    return wrong;
}

/* Places of both enumerations and past them; how many got another number than they are to get. */
static int conversions(void)
{
    int wrong = 0;
    const uint64_t past[] = { 10, 17, UINT64_MAX };
    for (enum call which = FROM_INTEGER_TYPE; which <= FROM_PRIMITIVE_TYPE; which++) {
        for (int i = 0; i < 20; i++) {
            place = i < 17 ? (uint64_t)i : past[i - 17];
            used(which);
            wrong += number != (place < (which == FROM_INTEGER_TYPE ? 10 : 17) ? 0 : 15);
        }
        printf("%7zu  %-24s  all places\n", greatest[which], names[which]);
    }
    place = 0;
    return wrong;
}

/* The sheets in files: the greatest for each call, and how many it got. */
static size_t recorded[CALLS];
static int sheets[CALLS];

/* The sheet in a file put to the calls that read its kind, in each order that they take; whether it could be read. */
static int measure_file(const char *path)
{
    FILE *file = fopen(path, "rb");
    if (!file) {
        fprintf(stderr, "stack: cannot read %s\n", path);
        return 0;
    }
    size = fread(sheet, 1, sizeof sheet, file);
    fclose(file);
    int is_field = size > 0 && sheet[0] == 'k';
    for (enum call which = is_field ? EXPORT : IMPORT; which <= (is_field ? CONTAINS_DICTIONARY : MEASURE_IMPORT); which++) {
        for (big = 0; big <= last_order(which); big++) {
            size_t bytes = used(which);
            if (bytes > recorded[which]) recorded[which] = bytes;
        }
        sheets[which]++;
    }
    return 1;
}

int main(int count, char **files)
{
    int wrong = measure("format name flags metadata children dictionary\n", schemas, sizeof schemas / sizeof *schemas, IMPORT, MEASURE_IMPORT);
    wrong += measure("kind p q text more name nullable pairs children\n", fields, sizeof fields / sizeof *fields, EXPORT, CONTAINS_DICTIONARY);
    wrong += conversions();
    for (int i = 1; i < count; i++)
        if (!measure_file(files[i])) return EXIT_FAILURE;
    size_t most = 0;
    for (enum call which = IMPORT; which < CALLS; which++) {
        if (sheets[which] > 0) printf("%7zu  %-24s  the greatest of %d sheets in files\n", recorded[which], names[which], sheets[which]);
        if (greatest[which] > most) most = greatest[which];
    }
    for (enum call which = IMPORT; which < CALLS; which++)
        printf("stack: %s, greatest %zu bytes\n", names[which], greatest[which]);
    printf("stack: greatest %zu bytes of the %d to reserve, %d wrong\n", most, JUZONTEFA_STACK, wrong);
    return wrong == 0 && most <= JUZONTEFA_STACK ? EXIT_SUCCESS : EXIT_FAILURE;
}
