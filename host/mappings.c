#include "mappings.h"

#include <stdio.h>
#include <stdlib.h>
#include <string.h>

#include "tries.h"

/* ── all calls in one form, for what is tried of each */

static uint64_t argument;

static struct juzontefa_answer child(const uint8_t *in, size_t in_len, uint8_t *to, size_t room)
{
    return juzontefa_get_child(in, in_len, argument, to, room);
}

static struct juzontefa_answer integer(const uint8_t *in, size_t in_len, uint8_t *to, size_t room)
{
    (void)in, (void)in_len;
    return juzontefa_from_integer_type(argument, to, room);
}

static struct juzontefa_answer primitive(const uint8_t *in, size_t in_len, uint8_t *to, size_t room)
{
    (void)in, (void)in_len;
    return juzontefa_from_primitive_type(argument, to, room);
}

/* A call that answers numbers as one that writes a sheet: the numbers are its length and must be 0 on refusal; the zeros of a refusal come from here. */
static struct juzontefa_answer numbers(uint64_t number, uint64_t sum, uint8_t *to, size_t room)
{
    if (number != 0 && room != 0)
        memset(to, 0, room);
    return (struct juzontefa_answer){ number, sum };
}

static struct juzontefa_answer physical(const uint8_t *in, size_t in_len, uint8_t *to, size_t room)
{
    struct juzontefa_places p = juzontefa_to_physical_type(in, in_len);
    return numbers(p.number, p.place + p.inner, to, room);
}

static struct juzontefa_answer nested(const uint8_t *in, size_t in_len, uint8_t *to, size_t room)
{
    struct juzontefa_yes_no y = juzontefa_is_nested(in, in_len);
    return numbers(y.number, y.answer, to, room);
}

static struct juzontefa_answer dictionary(const uint8_t *in, size_t in_len, uint8_t *to, size_t room)
{
    struct juzontefa_yes_no y = juzontefa_contains_dictionary(in, in_len);
    return numbers(y.number, y.answer, to, room);
}

/* ── sheets of every kind */

#define OWN "61 1 62=63" /* name, nullable and pairs */
#define BARE "~ ~ ~"
#define EXTENDED(own) "37 0 0 78 ~ " own " 1\n16 0 0 ~ ~ ~ ~ ~ 0\n" /* an extension over Date32 */
#define SECOND(own) "25 0 0 ~ ~ " own " 0\n"

/* The lines below a kind: as they are handed in, without extensions, and in their underlying physical types. */
static const struct below {
    int children;
    const char *handed, *stored, *underlying;
} no_fields = { 0, "", "", "" },
  one_field = { 1, EXTENDED("69 0 ~"), "16 0 0 ~ ~ 69 0 ~ 0\n", "4 0 0 ~ ~ 69 0 ~ 0\n" },
  two_fields = { 2, EXTENDED("69 0 ~") SECOND("75 1 -"), "16 0 0 ~ ~ 69 0 ~ 0\n" SECOND("75 1 -"), "4 0 0 ~ ~ 69 0 ~ 0\n" SECOND("75 1 -") },
  values = { 1, EXTENDED(BARE), "16 0 0 ~ ~ ~ ~ ~ 0\n", NULL };

/* A row of the table. */
static struct kind {
    char columns[64], underlying[32];
    int number; /* the place in ArrowDataType */
    const struct below *below;
    int is_physical; /* has a physical type, whose places follow */
    unsigned long long place, inner;
} kind;

static int is_list(void) { return kind.number >= 27 && kind.number <= 29; }
static int has_children(void) { return is_list() || kind.number == 30 || kind.number == 31 || kind.number == 41; }
static int is_dictionary(void) { return kind.number == 32; }
/* to_storage_recursive is not defined for maps and unions */
static int is_stored(void) { return kind.number != 31 && kind.number != 41; }
static int is_underlying(void) { return strcmp(kind.underlying, "15") != 0; }

static char handed[1024], wanted[1024];

/* Appends the kind's line with these three columns, and the lines below. */
static void put(char *to, const char *columns, const char *own, int children, const char *below)
{
    to += strlen(to);
    sprintf(to, "%s %s %d\n%s", columns, own, children, below);
}

static void put_handed(char *to, const char *own) { put(to, kind.columns, own, kind.below->children, kind.below->handed); }
static void put_stored(char *to, const char *own) { put(to, kind.columns, own, kind.below->children, kind.below->stored); }

static void put_underlying(char *to, const char *own)
{
    if (strcmp(kind.underlying, "=") == 0)
        put(to, kind.columns, own, kind.below->children, kind.below->underlying);
    else
        put(to, kind.underlying, own, 0, "");
}

/* The sheet at hand put to a call: what is wanted comes, or 15. */
static void gives(call *call, const char *what, int is_given)
{
    const uint8_t *in = (const uint8_t *)handed;
    if (is_given) {
        answered(call, what, in, strlen(handed), wanted);
        count(strlen(wanted) <= strlen(handed) || call == integer || call == primitive, "longer than the sheet", strlen(wanted), strlen(handed));
    } else {
        text(call, what, handed, 15);
        expect(call, what, in, strlen(handed), 0, 15, NULL);
    }
}

/* The sheet at hand put to the calls that answer numbers. */
static void says(int is_physical, uint64_t place, uint64_t inner, uint64_t is_nested, uint64_t contains)
{
    const uint8_t *in = (const uint8_t *)handed;
    size_t length = strlen(handed);
    struct juzontefa_places p = juzontefa_to_physical_type(in, length);
    int ok = is_physical ? p.number == 0 && p.place == place && p.inner == inner : p.number == 15 && p.place == 0 && p.inner == 0;
    count(ok, "to_physical_type", p.place, p.inner);
    struct juzontefa_yes_no y = juzontefa_is_nested(in, length);
    count(y.number == 0 && y.answer == is_nested, "is_nested", y.number, y.answer);
    y = juzontefa_contains_dictionary(in, length);
    count(y.number == 0 && y.answer == contains, "contains_dictionary", y.number, y.answer);
}

/* The places past those that a sheet or an enumeration has. */
static const uint64_t past[] = { 17, 255, 256, UINT64_C(1) << 32, UINT64_C(1) << 63, UINT64_MAX };

static void gives_no_child(uint64_t from)
{
    argument = from;
    gives(child, "get_child past the last", 0);
    for (size_t i = 0; i < sizeof past / sizeof *past; i++) {
        argument = past[i];
        gives(child, "get_child far past the last", 0);
    }
}

/* The children of the kind, looked for inside extensions. */
static void gives_children(void)
{
    int count = has_children() ? kind.below->children : 0;
    for (argument = 0; argument < (uint64_t)count; argument++) {
        sprintf(wanted, FIELD "%s", argument == 0 ? EXTENDED(BARE) : SECOND(BARE));
        gives(child, "get_child", 1);
    }
    gives_no_child((uint64_t)count);
}

/* The kind alone, and as what so many extensions are kept as. */
static void in_extensions(int extensions)
{
    const char *const around[] = { "", "37 0 0 78 79 " OWN " 1\n", "37 0 0 78 79 " OWN " 1\n37 0 0 - ~ ~ ~ ~ 1\n" };
    sprintf(handed, FIELD "%s", around[extensions]);
    put_handed(handed, extensions ? BARE : OWN);
    says(kind.is_physical, kind.place, kind.inner, extensions || has_children() || is_dictionary(), is_dictionary());

    strcpy(wanted, FIELD);
    put_handed(wanted, OWN);
    gives(juzontefa_to_storage, "to_storage", 1);
    strcpy(wanted, FIELD);
    put_stored(wanted, OWN);
    gives(juzontefa_to_storage_recursive, "to_storage_recursive", is_stored());
    strcpy(wanted, FIELD);
    if (is_underlying())
        put_underlying(wanted, OWN);
    gives(juzontefa_underlying_physical_type, "underlying_physical_type", is_underlying());
    strcpy(wanted, FIELD EXTENDED(BARE));
    gives(juzontefa_inner_dtype, "inner_dtype", !extensions && is_list());
    gives_children();
}

/* The kind as the items of a list. */
static void in_list(void)
{
    const char *const list = FIELD "27 0 0 ~ ~ 6c 0 ~ 1\n";
    put_handed(strcpy(handed, list), OWN);
    says(1, 8, 0, 1, is_dictionary());
    strcpy(wanted, handed);
    gives(juzontefa_to_storage, "to_storage of a list", 1);
    put_stored(strcpy(wanted, list), OWN);
    gives(juzontefa_to_storage_recursive, "to_storage_recursive of a list", is_stored());
    strcpy(wanted, list);
    if (is_underlying())
        put_underlying(wanted, OWN);
    gives(juzontefa_underlying_physical_type, "underlying_physical_type of a list", is_underlying());
    put_handed(strcpy(wanted, FIELD), BARE);
    gives(juzontefa_inner_dtype, "inner_dtype of a list", 1);
    argument = 0;
    gives(child, "get_child of a list", 1);
    gives_no_child(1);
}

/* The kind as the values of a dictionary, which underlying_physical_type does not look at. */
static void in_dictionary(void)
{
    const char *const values_of = FIELD "32 2 1 ~ ~ 64 0 - 1\n";
    put_handed(strcpy(handed, values_of), BARE);
    says(1, 14, 2, 1, 1);
    strcpy(wanted, handed);
    gives(juzontefa_to_storage, "to_storage of a dictionary", 1);
    put_stored(strcpy(wanted, values_of), BARE);
    gives(juzontefa_to_storage_recursive, "to_storage_recursive of a dictionary", is_stored());
    strcpy(wanted, FIELD "4 0 0 ~ ~ 64 0 - 0\n");
    gives(juzontefa_underlying_physical_type, "underlying_physical_type of a dictionary", 1);
    gives(juzontefa_inner_dtype, "inner_dtype of a dictionary", 0);
    gives_no_child(0);
}

/* Whether the row of the table reads. */
static int read_kind(const char *row)
{
    char fields[8], places[32];
    if (sscanf(row, "%63[^;];%7[^;];%31[^;];%31[^\n]", kind.columns, fields, places, kind.underlying) != 4)
        return 0;
    kind.number = atoi(kind.columns);
    kind.below = *fields == 'v' ? &values : *fields == '2' ? &two_fields : *fields == '1' ? &one_field : &no_fields;
    kind.is_physical = sscanf(places, "%llu %llu", &kind.place, &kind.inner) == 2;
    return kind.is_physical || strcmp(places, "15") == 0;
}

static void every_kind(const char *path)
{
    char row[256];
    int rows = 0, ok = 1;
    FILE *table = fopen(path, "r");
    while (table && ok && fgets(row, sizeof row, table)) {
        if (*row == '#')
            continue;
        ok = read_kind(row);
        for (int extensions = 0; ok && extensions <= 2; extensions++)
            in_extensions(extensions);
        if (ok)
            in_list(), in_dictionary(), rows++;
    }
    count(table && ok && rows > 0, "the table of kinds", (uint64_t)rows, 0);
    if (table)
        fclose(table);
}

/* ── conversions */

static void conversions(void)
{
    *handed = 0;
    for (argument = 0; argument < 10; argument++) {
        sprintf(wanted, FIELD "%d 0 0 ~ ~ ~ ~ ~ 0\n", (int)argument + 2);
        gives(integer, "from_integer_type", 1);
    }
    for (; argument < 40; argument++)
        gives(integer, "from_integer_type past the last", 0);
    for (argument = 0; argument < 17; argument++) {
        int place = (int)argument, kind_of = place < 5 ? place + 2 : place == 5 ? 36 : place < 14 ? place + 1 : 21;
        int size = place == 5 ? 32 : place < 14 ? 0 : place - 13;
        sprintf(wanted, FIELD "%d %d %d ~ ~ ~ ~ ~ 0\n", kind_of, size, place == 5 ? 32 : 0);
        gives(primitive, "from_primitive_type", 1);
        count(strlen(wanted) <= JUZONTEFA_CONVERTED_ROOM, "a conversion longer than the longest", strlen(wanted), 0);
    }
    for (; argument < 40; argument++)
        gives(primitive, "from_primitive_type past the last", 0);
    for (size_t i = 0; i < sizeof past / sizeof *past; i++) {
        argument = past[i];
        gives(integer, "from_integer_type far past the last", 0);
        gives(primitive, "from_primitive_type far past the last", 0);
    }
}

/* 1, 2 and 3 come before 15: each line below would get 15. */
static void broken_before_undefined(void)
{
    call *const calls[] = { juzontefa_underlying_physical_type, juzontefa_to_storage_recursive, juzontefa_inner_dtype, child };
    argument = 5;
    for (size_t i = 0; i < sizeof calls / sizeof *calls; i++) {
        text(calls[i], "undefined", FIELD "41 0 0 ~ ~ 61 0 ~ 0\n", 15);
        text(calls[i], "undefined and left over", FIELD "41 0 0 ~ ~ 61 0 ~ 0\n41 0 0 ~ ~ 61 0 ~ 0\n", 2);
        many((char *)sheet, FIELD, 32, "41 0 0 ~ ~ 61 0 ~ 1\n");
        strcat((char *)sheet, "41 0 0 ~ ~ 61 0 ~ 0\n");
        text(calls[i], "undefined and 33 levels", (char *)sheet, 3);
    }
    text(physical, "unknown and left over", FIELD "40 0 0 ~ ~ 61 0 ~ 0\n40 0 0 ~ ~ 61 0 ~ 0\n", 2);
}

void mappings(const char *kinds)
{
    call *const calls[] = { juzontefa_underlying_physical_type, juzontefa_to_storage, juzontefa_to_storage_recursive, juzontefa_inner_dtype,
                            child, physical, nested, dictionary };
    argument = 0;
    for (size_t i = 0; i < sizeof calls / sizeof *calls; i++)
        broken_sheets(calls[i], FIELD, "27 0 0 ~ ~ 70 1 ~ 1\n", "14 0 0 ~ ~ 69 0 ~ 0\n");
    broken_before_undefined();
    every_kind(kinds);
    conversions();
}
