/* A C host: walks ArrowSchema structs into schema sheets, imports them and exports what comes; makes field sheets plain, takes them out and back, and
 * into pages; tries pages and mappings on every kind, metadata in both byte orders, what import and export measure, and what strict export refuses; and
 * tries broken, empty and oversized input on every call.
 * Prints the field sheets and a count; the status is 0 only if every answer was the expected one.
 *
 *   c KINDS    the table of kinds, host/kinds */
#include <stdio.h>
#include <stdlib.h>
#include <string.h>

#include "arrow/juzontefa_arrow.h"
#include "mappings.h"
#include "measures.h"
#include "orders.h"
#include "strict.h"
#include "tries.h"

/* ── import, over real structs */

/* The structs of this host own nothing. */
static void release_nothing(struct ArrowSchema *schema)
{
    schema->release = NULL;
}

/* The sheet of a struct, in `sheet`; its length. */
static size_t walked(const char *what, const struct ArrowSchema *schema)
{
    struct juzontefa_walked w = juzontefa_schema_to_sheet(schema, sheet, sizeof sheet);
    count(w.number == 0, what, w.number, w.needed);
    return w.length;
}

static void import_struct(const char *what, const struct ArrowSchema *schema, const char *answer)
{
    size_t length = walked(what, schema);
    answered(juzontefa_import, what, sheet, length, answer);
    printf("%s\n%s", what, answer);
}

static void structs(void)
{
    struct ArrowSchema item = { .format = "g", .name = "item", .release = release_nothing };
    struct ArrowSchema *items[] = { &item };
    struct ArrowSchema peak = { .format = "+l", .name = "peak", .flags = ARROW_FLAG_NULLABLE, .n_children = 1, .children = items, .release = release_nothing };
    const char *peaks = FIELD "27 0 0 ~ ~ 7065616b 1 ~ 1\n14 0 0 ~ ~ 6974656d 0 ~ 0\n";
    import_struct("a list of peaks", &peak, peaks);
    sheet[walked("the list again", &peak)] = 0;
    answered(juzontefa_export, "export of the list", (const uint8_t *)peaks, strlen(peaks), strcpy(expected, (const char *)sheet));

    /* two pairs of one key: the last wins */
    static const char pairs[] = "\2\0\0\0" "\1\0\0\0" "m" "\1\0\0\0" "1" "\1\0\0\0" "m" "\1\0\0\0" "2";
    struct ArrowSchema values = { .format = "u", .name = "", .flags = ARROW_FLAG_NULLABLE, .release = release_nothing };
    struct ArrowSchema trace = { .format = "i", .name = "trace", .metadata = pairs, .flags = ARROW_FLAG_DICTIONARY_ORDERED, .dictionary = &values, .release = release_nothing };
    import_struct("a dictionary", &trace, FIELD "32 2 1 ~ ~ 7472616365 0 6d=32 1\n25 0 0 ~ ~ ~ ~ ~ 0\n");

    /* private high flags make the flags negative: ordered and nullable are still their bits */
    struct ArrowSchema band = { .format = "C", .name = "band", .flags = INT64_MIN | ARROW_FLAG_DICTIONARY_ORDERED, .dictionary = &values, .release = release_nothing };
    import_struct("a required column with private flags", &band, FIELD "32 5 1 ~ ~ 62616e64 0 ~ 1\n25 0 0 ~ ~ ~ ~ ~ 0\n");
    struct ArrowSchema level = { .format = "g", .name = "level", .flags = INT64_MIN | ARROW_FLAG_NULLABLE, .release = release_nothing };
    import_struct("a nullable column with private flags", &level, FIELD "14 0 0 ~ ~ 6c6576656c 1 ~ 0\n");

    struct ArrowSchema *both[] = { &peak, &trace };
    struct ArrowSchema sweep = { .format = "+s", .name = NULL, .n_children = 2, .children = both, .release = release_nothing };
    import_struct("a struct without a name", &sweep,
                  FIELD "30 0 0 ~ ~ - 0 ~ 2\n27 0 0 ~ ~ 7065616b 1 ~ 1\n14 0 0 ~ ~ 6974656d 0 ~ 0\n32 2 1 ~ ~ 7472616365 0 6d=32 1\n25 0 0 ~ ~ ~ ~ ~ 0\n");

    struct ArrowSchema nothing = { .format = NULL, .name = "x", .release = release_nothing };
    size_t length = walked("a null format", &nothing);
    expect(juzontefa_import, "a null format", sheet, length, ROOM, 4, NULL);
}

static void broken_schemas(void)
{
    text(juzontefa_import, "not UTF-8", SCHEMA "ff - 0 ~ 0 0\n", 5);
    text(juzontefa_import, "unsupported", SCHEMA "78 - 0 ~ 0 0\n", 6);
    text(juzontefa_import, "a bad size", SCHEMA "773a7a - 0 ~ 0 0\n", 7);
    text(juzontefa_import, "a bad decimal", SCHEMA "643a35 - 0 ~ 0 0\n", 8);
    text(juzontefa_import, "a bad index", SCHEMA "67 - 0 ~ 0 1\n67 - 0 ~ 0 0\n", 9);
    text(juzontefa_import, "no child", SCHEMA "2b6c - 0 ~ 0 0\n", 10);
    text(juzontefa_import, "metadata cut short", SCHEMA "67 - 0 0100 0 0\n", 11);
}

/* ── export, plain form and round trips of field sheets */

#define NAMED "01000000140000004152524f573a657874656e73696f6e3a6e616d650100000078" /* ARROW:extension:name = x */

static const struct {
    const char *what, *field, *exported, *plain;
} fields[] = {
    { "one leaf", FIELD "14 0 0 ~ ~ 7065616b 1 ~ 0\n", SCHEMA "67 7065616b 2 ~ 0 0\n", FIELD "14 0 0 ~ ~ 7065616b 1 ~ 0\n" },
    { "a struct of two equal lists of peaks",
      FIELD "30 0 0 ~ ~ 73 0 ~ 2\n27 0 0 ~ ~ 7065616b 1 ~ 1\n14 0 0 ~ ~ 6974656d 0 ~ 0\n27 0 0 ~ ~ 7065616b 1 ~ 1\n14 0 0 ~ ~ 6974656d 0 ~ 0\n",
      SCHEMA "2b73 73 0 ~ 2 0\n2b6c 7065616b 2 ~ 1 0\n67 6974656d 0 ~ 0 0\n2b6c 7065616b 2 ~ 1 0\n67 6974656d 0 ~ 0 0\n",
      FIELD "30 0 0 ~ ~ 73 0 ~ 2\n27 0 0 ~ ~ 7065616b 1 ~ 1\n14 0 0 ~ ~ 6974656d 0 ~ 0\n27 0 0 ~ ~ 7065616b 1 ~ 1\n14 0 0 ~ ~ 6974656d 0 ~ 0\n" },
    { "a dictionary", FIELD "32 2 1 ~ ~ 7472616365 0 6d=32 1\n25 0 0 ~ ~ ~ ~ ~ 0\n",
      SCHEMA "69 7472616365 1 01000000010000006d0100000032 0 1\n75 - 2 ~ 0 0\n", FIELD "32 2 1 ~ ~ 7472616365 0 6d=32 1\n25 0 0 ~ ~ ~ ~ ~ 0\n" },
    { "a dictionary under an extension", FIELD "37 0 0 78 ~ 70 1 ~ 1\n32 2 1 ~ ~ ~ ~ ~ 1\n25 0 0 ~ ~ ~ ~ ~ 0\n", SCHEMA "69 70 2 " NAMED " 0 0\n",
      FIELD "37 0 0 78 ~ 70 1 ~ 1\n4 0 0 ~ ~ ~ ~ ~ 0\n" },
    { "nested extensions", FIELD "37 0 0 78 ~ 70 1 - 1\n37 0 0 79 7a ~ ~ ~ 1\n25 0 0 ~ ~ ~ ~ ~ 0\n", SCHEMA "75 70 2 " NAMED " 0 0\n",
      FIELD "37 0 0 78 ~ 70 1 ~ 1\n25 0 0 ~ ~ ~ ~ ~ 0\n" },
    { "a union without ids", FIELD "41 0 0 ~ ~ 75 0 ~ 2\n14 0 0 ~ ~ 61 1 - 0\n15 0 0 - ~ 62 0 ~ 0\n",
      SCHEMA "2b75643a302c31 75 0 ~ 2 0\n67 61 2 ~ 0 0\n7473733a 62 0 ~ 0 0\n",
      FIELD "41 0 0 0,1 ~ 75 0 ~ 2\n14 0 0 ~ ~ 61 1 ~ 0\n15 0 0 ~ ~ 62 0 ~ 0\n" },
    { "a map with sorted keys", FIELD "31 1 0 ~ ~ 70 1 6d=31,6e= 1\n30 0 0 ~ ~ 65 0 ~ 2\n25 0 0 ~ ~ 6b 0 ~ 0\n4 0 0 ~ ~ 76 1 ~ 0\n",
      SCHEMA "2b6d 70 6 02000000010000006d0100000031010000006e00000000 1 0\n2b73 65 0 ~ 2 0\n75 6b 0 ~ 0 0\n69 76 2 ~ 0 0\n",
      FIELD "31 1 0 ~ ~ 70 1 6d=31,6e= 1\n30 0 0 ~ ~ 65 0 ~ 2\n25 0 0 ~ ~ 6b 0 ~ 0\n4 0 0 ~ ~ 76 1 ~ 0\n" },
};

/* What only export refuses; its plain form is the field itself. */
static const struct {
    const char *what, *field;
    uint64_t number;
} owners[] = {
    { "no format", FIELD "18 2 0 ~ ~ 70 1 ~ 0\n", 12 },
    { "a union with no ids listed", FIELD "41 0 0 - ~ 70 1 ~ 0\n", 13 },
    { "byte 00 in a name", FIELD "4 0 0 ~ ~ 00 1 ~ 0\n", 14 },
};

static struct juzontefa_trip round_trip(const uint8_t *in, size_t in_len, uint8_t *const out[4], const size_t room[4])
{
    return juzontefa_round_trip(in, in_len, out[0], room[0], out[1], room[1], out[2], room[2], out[3], room[3]);
}

static void field_sheets(void)
{
    for (size_t i = 0; i < sizeof fields / sizeof *fields; i++) {
        const char *field = fields[i].field, *x = fields[i].exported, *p = fields[i].plain;
        answered(juzontefa_export, fields[i].what, (const uint8_t *)field, strlen(field), x);
        answered(juzontefa_plain_form, fields[i].what, (const uint8_t *)field, strlen(field), p);

        const char *const sheets[4] = { x, p, p, x };
        comes_back(round_trip, fields[i].what, field, sheets);
    }
    for (size_t i = 0; i < sizeof owners / sizeof *owners; i++) {
        const char *field = owners[i].field;
        text(juzontefa_export, owners[i].what, field, owners[i].number);
        expect(juzontefa_export, owners[i].what, (const uint8_t *)field, strlen(field), 0, owners[i].number, NULL);
        answered(juzontefa_plain_form, owners[i].what, (const uint8_t *)field, strlen(field), field);
        expect_trip(round_trip, owners[i].what, field, wide, JUZONTEFA_EXPORT_REFUSED, owners[i].number, NULL);
    }
}

/* The other answers of a round trip. That the second export differs is not to be had: a plain form is exported as its field is. */
static void other_trips(void)
{
    expect_trip(round_trip, "null and empty", NULL, wide, JUZONTEFA_EXPORT_REFUSED, 1, NULL);
    expect_trip(round_trip, "null, empty and no buffers", NULL, none, JUZONTEFA_EXPORT_REFUSED, 1, NULL);
    expect_trip(round_trip, "no line", FIELD, wide, JUZONTEFA_EXPORT_REFUSED, 2, NULL);
    many((char *)sheet, FIELD, 32, "27 0 0 ~ ~ 70 1 ~ 1\n");
    strcat((char *)sheet, "14 0 0 ~ ~ 69 0 ~ 0\n");
    expect_trip(round_trip, "33 levels", (char *)sheet, wide, JUZONTEFA_EXPORT_REFUSED, 3, NULL);
    expect_trip(round_trip, "an index of 128 bits", FIELD "32 4 0 ~ ~ 70 1 ~ 1\n25 0 0 ~ ~ ~ ~ ~ 0\n", wide, JUZONTEFA_IMPORT_REFUSED, 9, NULL);
    many((char *)sheet, FIELD "30 0 0 ~ ~ - 0 ~ 700\n", 700, "37 0 0 - - - 0 ~ 1\n6 0 0 ~ ~ ~ ~ ~ 0\n");
    expect_trip(round_trip, "an export too long to hand in", (char *)sheet, wide, JUZONTEFA_IMPORT_REFUSED, 1, NULL);
    many((char *)sheet, FIELD "41 0 0 ~ ~ - 0 ~ 1000\n", 1000, "14 0 0 ~ ~ 61616161616161616161616161616161616161616161 0 ~ 0\n");
    expect_trip(round_trip, "a plain form too long to hand in", (char *)sheet, wide, JUZONTEFA_AGAIN_REFUSED, 1, NULL);

#define KEY "4152524f573a657874656e73696f6e3a6e616d65=78" /* ARROW:extension:name=x as a pair of the field's own */
    static const char *const kept[4] = { SCHEMA "69 70 2 " NAMED " 0 0\n", FIELD "37 0 0 78 ~ 70 1 ~ 1\n4 0 0 ~ ~ ~ ~ ~ 0\n",
                                         FIELD "4 0 0 ~ ~ 70 1 " KEY " 0\n", SCHEMA "69 70 2 " NAMED " 0 0\n" };
    expect_trip(round_trip, "a reserved key", FIELD "4 0 0 ~ ~ 70 1 " KEY " 0\n", wide, JUZONTEFA_IMPORT_DIFFERS, 0, kept);
}

/* ── pages */

/* A line of a page as printf justifies it; its end. */
static char *page_line(char *to, int level, const char *kind, char mark, const char *name)
{
    return to + sprintf(to, "%3d %-16s %c %-48.48s%c\n", level, kind, mark, name, strlen(name) > 48 ? '+' : ' ');
}

/* names of 8 and 23 bytes */
#define N8 "6e6e6e6e6e6e6e6e"
#define N23 N8 N8 "6e6e6e6e6e6e6e"

/* The lines of a page end where the level is 0. */
static const struct {
    const char *what, *field;
    struct {
        int level;
        const char *kind;
        char mark;
        const char *name;
    } lines[6];
} pages[] = {
    { "a page of one leaf", FIELD "14 0 0 ~ ~ 7065616b 1 ~ 0\n", { { 1, "Float64", 'y', "7065616b" } } },
    { "a page of a dictionary", FIELD "32 2 1 ~ ~ 7472616365 0 6d=32 1\n25 0 0 ~ ~ ~ ~ ~ 0\n",
      { { 1, "Dictionary", 'n', "7472616365" }, { 2, "Utf8", '.', "" } } },
    { "a page of nested extensions", FIELD "37 0 0 78 ~ 70 1 - 1\n37 0 0 79 7a ~ ~ ~ 1\n27 0 0 ~ ~ ~ ~ ~ 1\n14 0 0 ~ ~ 69 0 ~ 0\n",
      { { 1, "Extension", 'y', "70" }, { 2, "Extension", '.', "" }, { 2, "List", '.', "" }, { 3, "Float64", 'n', "69" } } },
    { "a page of a union", FIELD "41 0 0 - ~ 75 0 ~ 2\n37 0 0 78 ~ - 1 - 1\n15 0 0 - ~ ~ ~ ~ 0\n18 3 0 ~ ~ 62 0 ~ 0\n",
      { { 1, "Union", 'n', "75" }, { 2, "Extension", 'y', "" }, { 2, "Timestamp", '.', "" }, { 2, "Time32", 'n', "62" } } },
    { "names of 23 to 26 bytes",
      FIELD "30 0 0 ~ ~ " N23 " 0 ~ 3\n0 0 0 ~ ~ " N23 "6e 0 ~ 0\n40 0 0 ~ ~ " N23 "6e00 1 ~ 0\n1 0 0 ~ ~ " N23 "6e6e6e 0 ~ 0\n",
      { { 1, "Struct", 'n', N23 }, { 2, "Null", 'n', N23 "6e" }, { 2, "Unknown", 'y', N23 "6e00" }, { 2, "Boolean", 'n', N23 "6e6e6e" } } },
    { "a name cut in a character", FIELD "0 0 0 ~ ~ " N23 "c3a9 0 ~ 0\n", { { 1, "Null", 'n', N23 "c3a9" } } },
};

/* In the order of the kinds. */
static const char *const kinds[42] = {
    "Null", "Boolean", "Int8", "Int16", "Int32", "Int64", "Int128", "UInt8", "UInt16", "UInt32", "UInt64", "UInt128", "Float16", "Float32", "Float64",
    "Timestamp", "Date32", "Date64", "Time32", "Time64", "Duration", "Interval", "Binary", "FixedSizeBinary", "LargeBinary", "Utf8", "LargeUtf8", "List",
    "FixedSizeList", "LargeList", "Struct", "Map", "Dictionary", "Decimal", "Decimal32", "Decimal64", "Decimal256", "Extension", "BinaryView", "Utf8View",
    "Unknown", "Union"
};

/* Each kind alone, or over one leaf where it must have one. */
static void page_of_each_kind(void)
{
    for (int kind = 0; kind < 42; kind++) {
        int is_list = (kind >= 27 && kind <= 29) || kind == 31, is_over_bare = kind == 32 || kind == 37;
        char *s = (char *)sheet + sprintf((char *)sheet, FIELD "%d 0 0 %s ~ 70 1 ~ %d\n", kind, kind == 37 ? "78" : "~", is_list || is_over_bare);
        char *to = page_line(expected, 1, kinds[kind], 'y', "70");
        if (is_list) {
            s += sprintf(s, "14 0 0 ~ ~ 69 0 ~ 0\n");
            page_line(to, 2, "Float64", 'n', "69");
        } else if (is_over_bare) {
            s += sprintf(s, "14 0 0 ~ ~ ~ ~ ~ 0\n");
            page_line(to, kind == 37 ? 1 : 2, "Float64", '.', "");
        }
        answered(juzontefa_page, kinds[kind], sheet, (size_t)(s - (char *)sheet), expected);
    }
}

static void field_pages(void)
{
    for (size_t i = 0; i < sizeof pages / sizeof *pages; i++) {
        char *to = expected;
        for (int line = 0; pages[i].lines[line].level; line++)
            to = page_line(to, pages[i].lines[line].level, pages[i].lines[line].kind, pages[i].lines[line].mark, pages[i].lines[line].name);
        answered(juzontefa_page, pages[i].what, (const uint8_t *)pages[i].field, strlen(pages[i].field), expected);
    }
    page_of_each_kind();
}

/* ── the longest answers that were found, for 65,535 bytes each */

/* `room` is what the header says to reserve for such a sheet. */
static void longest(call *call, const char *what, size_t in, size_t to, size_t found, size_t room)
{
    count(in == LONGEST && to == found && found <= room, what, in, to);
    expect(call, what, sheet, in, found, 0, expected);
}

static size_t ids(char *to, int count, const char *each)
{
    size_t length = 0;
    for (int id = 0; id < count; id++) {
        char text[16];
        snprintf(text, sizeof text, id ? ",%d" : "%d", id);
        for (const char *c = text; *c; c++)
            length += (size_t)sprintf(to + length, each, *c);
    }
    return length;
}

static void longest_answers(void)
{
    char *s = (char *)sheet;
    size_t in = many(s, SCHEMA "2b73 69 0 ~ 5036 0\n67 69 0 ~ 0 0\n", 5035, "67 - 0 ~ 0 0\n");
    size_t to = many(expected, FIELD "30 0 0 ~ ~ 69 0 ~ 5036\n14 0 0 ~ ~ 69 0 ~ 0\n", 5035, "14 0 0 ~ ~ - 0 ~ 0\n");
    longest(juzontefa_import, "the longest answer of import", in, to, 95756, JUZONTEFA_IMPORT_ROOM(LONGEST));

    in = many(s, FIELD "41 0 0 ~ ~ - 0 ~ 1769\n37 0 0 - - - 0 =,00=,01=,02= 1\n6 0 0 ~ ~ ~ ~ ~ 0\n", 1768, "37 0 0 - - - 0 = 1\n6 0 0 ~ ~ ~ ~ ~ 0\n");
    to = (size_t)sprintf(expected, SCHEMA "2b75643a");
    to += ids(expected + to, 1769, "%02x");
    /* a block of metadata: a count, the field's own pairs, then the extension's metadata and name */
#define EXTENSION "180000004152524f573a657874656e73696f6e3a6d6574616461746100000000140000004152524f573a657874656e73696f6e3a6e616d6500000000"
#define KEYS "010000000000000000" "010000000100000000" "010000000200000000"
    to += many(expected + to, " - 0 ~ 1769 0\n5f706c69313238 - 0 060000000000000000000000" KEYS EXTENSION " 0 0\n", 1768,
               "5f706c69313238 - 0 030000000000000000000000" EXTENSION " 0 0\n");
    longest(juzontefa_export, "the longest answer of export", in, to, 312783, JUZONTEFA_EXPORT_ROOM(LONGEST));

    in = many(s, FIELD "41 0 0 ~ ~ 6c6f6e67207965732e 0 ~ 3636\n", 3636, "0 0 0 ~ ~ - 0 ~ 0\n");
    to = (size_t)sprintf(expected, FIELD "41 0 0 ");
    to += ids(expected + to, 3636, "%c");
    to += many(expected + to, " ~ 6c6f6e67207965732e 0 ~ 3636\n", 3636, "0 0 0 ~ ~ - 0 ~ 0\n");
    longest(juzontefa_plain_form, "the longest answer of plain form", in, to, 82603, JUZONTEFA_PLAIN_FORM_ROOM(LONGEST));

    char leaf[74];
    page_line(leaf, 2, "Null", 'n', "");
    to = (size_t)(page_line(expected, 1, "Union", 'n', "6c6f6e67207965732e") - expected);
    to += many(expected + to, "", 3636, leaf);
    longest(juzontefa_page, "the longest page", in, to, 265501, JUZONTEFA_PAGE_ROOM(LONGEST));
}

int main(int count, char **words)
{
    structs();
    broken_schemas();
    broken_sheets(juzontefa_import, SCHEMA, "2b6c 70 2 ~ 1 0\n", "67 69 0 ~ 0 0\n");
    broken_sheets(juzontefa_export, FIELD, "27 0 0 ~ ~ 70 1 ~ 1\n", "14 0 0 ~ ~ 69 0 ~ 0\n");
    broken_sheets(juzontefa_plain_form, FIELD, "27 0 0 ~ ~ 70 1 ~ 1\n", "14 0 0 ~ ~ 69 0 ~ 0\n");
    broken_sheets(juzontefa_page, FIELD, "27 0 0 ~ ~ 70 1 ~ 1\n", "14 0 0 ~ ~ 69 0 ~ 0\n");
    field_sheets();
    other_trips();
    field_pages();
    longest_answers();
    orders();
    measures();
    strict_exports();
    mappings(count == 2 ? words[1] : "");
    printf("C host: %d tried, %d wrong\n", tried, wrong);
    return wrong == 0 ? EXIT_SUCCESS : EXIT_FAILURE;
}
