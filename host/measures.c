#include "measures.h"

#include <stdio.h>
#include <string.h>

#include "tries.h"

typedef struct juzontefa_measure measure(const uint8_t *sheet, size_t sheet_len, uint64_t big);
typedef struct juzontefa_answer conversion(const uint8_t *sheet, size_t sheet_len, uint64_t big, uint8_t *out, size_t out_len);

/* A conversion and its measure. */
struct way {
    measure *measure;
    conversion *convert;
    const char *heading;
};

static const struct way import = { juzontefa_measure_import, juzontefa_import_with_order, SCHEMA };
static const struct way export = { juzontefa_measure_export, juzontefa_export_with_order, FIELD };

/* Every number but 0 is big-endian. */
static const uint64_t orders[] = { 0, 1, 2, 256, UINT64_C(1) << 63, UINT64_MAX };

/* The way that is tried, and its order, for what is tried of a conversion with a buffer. */
static struct way at_hand;
static uint64_t big;

static struct juzontefa_answer converted(const uint8_t *in, size_t in_len, uint8_t *to, size_t room)
{
    return at_hand.convert(in, in_len, big, to, room);
}

/* A measure as a call that writes a sheet: the counts are its length, and must be 0 on refusal; the zeros of a refusal come from here. */
static struct juzontefa_answer measured(const uint8_t *in, size_t in_len, uint8_t *to, size_t room)
{
    struct juzontefa_measure m = at_hand.measure(in, in_len, big);
    if (m.number != 0 && room != 0)
        memset(to, 0, room);
    return (struct juzontefa_answer){ m.number, m.length + m.lines };
}

/* The measure of a sheet, and what the conversion does with a buffer of that length, and of one byte fewer. */
static void expect_measure(const char *what, const uint8_t *in, size_t in_len, uint64_t length, uint64_t lines)
{
    static uint8_t out[ROOM];
    struct juzontefa_measure m = at_hand.measure(in, in_len, big);
    count(m.number == 0 && m.length == length && m.lines == lines, what, m.length, m.lines);
    if (m.length == 0 || m.length > ROOM)
        return;
    struct juzontefa_answer exact = converted(in, in_len, out, m.length), short_of = converted(in, in_len, out, m.length - 1);
    count(exact.number == 0 && exact.length == m.length, "the least buffer", exact.number, exact.length);
    count(short_of.number == JUZONTEFA_NO_ROOM, "one byte fewer", short_of.number, short_of.length);
}

/* ── lines that are visited */

#define NAME_KEY "4152524f573a657874656e73696f6e3a6e616d65" /* ARROW:extension:name, 20 bytes */
#define NAMED "0100000014000000" NAME_KEY "0100000078"
#define NAMED_BIG "0000000100000014" NAME_KEY "0000000178"
#define NONE "6e - 0 ~ 0 0\n"
#define BROKEN "78 - 0 ~ 0 0\n" /* no format, where it is visited */

struct visit {
    const char *what, *lines;
    uint64_t length, visited;
};

static const struct visit schemas[] = {
    { "one leaf", NONE, 66, 1 },
    { "a leaf with a child", "6e - 0 ~ 1 0\n" BROKEN, 66, 1 },
    { "a leaf with children and theirs", "6e - 0 ~ 2 0\n2b6c - 0 ~ 1 0\n" BROKEN BROKEN, 66, 1 },
    { "a list", "2b6c - 0 ~ 1 0\n" NONE, 85, 2 },
    { "a list with a second child", "2b6c - 0 ~ 2 0\n" NONE BROKEN, 85, 2 },
    { "a map with a third child", "2b6d - 0 ~ 3 0\n2b6c - 0 ~ 1 0\n" NONE BROKEN BROKEN, 104, 3 },
    { "a struct of nothing", "2b73 - 0 ~ 0 0\n", 67, 1 },
    { "a struct", "2b73 - 0 ~ 2 0\n" NONE "6e - 0 ~ 1 0\n" BROKEN, 103, 3 },
    { "a union", "2b75733a37 - 0 ~ 2 0\n" NONE NONE, 103, 3 },
    { "a dictionary", "69 - 0 ~ 0 1\n" NONE, 85, 2 },
    { "a dictionary with a child", "69 - 0 ~ 1 1\n" BROKEN NONE, 85, 2 },
    { "a dictionary of dictionaries", "69 - 0 ~ 0 1\n69 - 0 ~ 1 1\n" BROKEN "2b6c - 0 ~ 2 0\n" NONE BROKEN, 123, 4 },
};

static const struct visit fields[] = {
    { "one leaf", "0 0 0 ~ ~ - 0 ~ 0\n", 60, 1 },
    { "a dictionary", "32 2 0 ~ ~ - 0 ~ 1\n0 0 0 ~ ~ ~ ~ ~ 0\n", 73, 2 },
    { "an extension", "37 0 0 78 ~ - 0 ~ 1\n0 0 0 ~ ~ ~ ~ ~ 0\n", 125, 2 },
    { "extensions", "37 0 0 78 ~ - 0 ~ 1\n37 0 0 79 ~ ~ ~ ~ 1\n37 0 0 7a ~ ~ ~ ~ 1\n0 0 0 ~ ~ ~ ~ ~ 0\n", 125, 4 },
    { "a dictionary in an extension", "37 0 0 78 ~ - 0 ~ 1\n32 2 0 ~ ~ ~ ~ ~ 1\n0 0 0 ~ ~ ~ ~ ~ 0\n", 125, 2 },
    { "a dictionary in two", "37 0 0 78 ~ - 0 ~ 1\n37 0 0 79 ~ ~ ~ ~ 1\n32 2 0 ~ ~ ~ ~ ~ 1\n40 0 0 ~ ~ ~ ~ ~ 0\n", 125, 3 },
    { "an extension as the values", "32 2 0 ~ ~ - 0 ~ 1\n37 0 0 78 ~ ~ ~ ~ 1\n32 2 0 ~ ~ ~ ~ ~ 1\n0 0 0 ~ ~ ~ ~ ~ 0\n", 138, 3 },
    { "all below values that are not visited", "37 0 0 78 ~ - 0 ~ 1\n32 2 0 ~ ~ ~ ~ ~ 1\n30 0 0 ~ ~ ~ ~ ~ 2\n40 0 0 ~ ~ - 0 ~ 0\n0 0 0 ~ ~ 00 0 ~ 0\n", 125, 2 },
    { "a list in an extension", "37 0 0 78 ~ - 0 ~ 1\n27 0 0 ~ ~ ~ ~ ~ 1\n32 2 0 ~ ~ - 0 ~ 1\n0 0 0 ~ ~ ~ ~ ~ 0\n", 153, 4 },
};

/* A sheet without metadata, and a field, have one measure in both orders. */
static void visits(struct way way, const struct visit *tried_on, size_t sheets)
{
    char text[512];
    at_hand = way;
    for (size_t i = 0; i < sheets; i++) {
        snprintf(text, sizeof text, "%s%s", way.heading, tried_on[i].lines);
        for (size_t j = 0; j < sizeof orders / sizeof *orders; j++) {
            big = orders[j];
            expect_measure(tried_on[i].what, (const uint8_t *)text, strlen(text), tried_on[i].length, tried_on[i].visited);
        }
    }
}

/* An extension that metadata makes is one line of the schema, and two of the field; in the other order its block is refused. */
static void extensions(void)
{
    static const char *const sheets[2] = { SCHEMA "6e - 0 " NAMED " 0 0\n", SCHEMA "6e - 0 " NAMED_BIG " 0 0\n" };
    at_hand = import;
    for (size_t i = 0; i < 2; i++)
        for (size_t j = 0; j < sizeof orders / sizeof *orders; j++) {
            big = orders[j];
            if ((big != 0) == (i == 1))
                expect_measure("an extension", (const uint8_t *)sheets[i], strlen(sheets[i]), 86, 1);
            else
                text(measured, "an extension in the other order", sheets[i], JUZONTEFA_BAD_METADATA);
        }
}

/* ── what the conversions refuse, with the same number and no counts */

struct refused {
    const char *what, *lines;
    uint64_t number;
};

static const struct refused unread[] = {
    { "a null format", "2b73 - 0 ~ 2 0\n" NONE "~ - 0 ~ 0 0\n", 4 },
    { "a name that is not UTF-8", "6e ff 0 ~ 0 0\n", 5 },
    { "an unsupported child", "2b6c - 0 ~ 1 0\n" BROKEN, 6 },
    { "a bad size", "773a7a - 0 ~ 0 0\n", 7 },
    { "a bad decimal", "643a35 - 0 ~ 0 0\n", 8 },
    { "a bad index", "67 - 0 ~ 0 1\n" NONE, 9 },
    { "no child", "2b6c - 0 ~ 0 0\n", 10 },
    { "no metadata in a block", "6e - 0 - 0 0\n", 11 },
};

static const struct refused unwritten[] = {
    { "no format", "30 0 0 ~ ~ - 0 ~ 2\n0 0 0 ~ ~ - 0 ~ 0\n40 0 0 ~ ~ - 0 ~ 0\n", 12 },
    { "a union with no ids listed", "41 0 0 - ~ - 0 ~ 0\n", 13 },
    { "byte 00 in a name", "0 0 0 ~ ~ 00 0 ~ 0\n", 14 },
};

static void refusals(struct way way, const struct refused *refused, size_t sheets)
{
    char lines[256];
    at_hand = way;
    for (size_t i = 0; i < sheets; i++) {
        snprintf(lines, sizeof lines, "%s%s", way.heading, refused[i].lines);
        for (big = 0; big < 2; big++) {
            text(measured, refused[i].what, lines, refused[i].number);
            text(converted, refused[i].what, lines, refused[i].number);
        }
    }
}

/* What is no sheet, or has too many levels. */
static void broken(void)
{
    for (big = 0; big < 2; big++) {
        at_hand = import;
        broken_sheets(measured, SCHEMA, "2b6c 70 2 ~ 1 0\n", "67 69 0 ~ 0 0\n");
        at_hand = export;
        broken_sheets(measured, FIELD, "27 0 0 ~ ~ 70 1 ~ 1\n", "14 0 0 ~ ~ 69 0 ~ 0\n");
    }
}

/* The longest answers that were found, of sheets of 65,535 bytes: longer than a sheet may be, and 16 does not come. */
static void longest(void)
{
    char *s = (char *)sheet;
    for (big = 0; big < 2; big++) {
        at_hand = import;
        size_t in = many(s, SCHEMA "2b73 69 0 ~ 5036 0\n67 69 0 ~ 0 0\n", 5035, "67 - 0 ~ 0 0\n");
        expect_measure("the longest answer of import", sheet, in, 95756, 5037);
        at_hand = export;
        in = many(s, FIELD "41 0 0 ~ ~ - 0 ~ 1769\n37 0 0 - - - 0 =,00=,01=,02= 1\n6 0 0 ~ ~ ~ ~ ~ 0\n", 1768, "37 0 0 - - - 0 = 1\n6 0 0 ~ ~ ~ ~ ~ 0\n");
        expect_measure("the longest answer of export", sheet, in, 312783, 3539);
    }
}

void measures(void)
{
    visits(import, schemas, sizeof schemas / sizeof *schemas);
    visits(export, fields, sizeof fields / sizeof *fields);
    extensions();
    refusals(import, unread, sizeof unread / sizeof *unread);
    refusals(export, unwritten, sizeof unwritten / sizeof *unwritten);
    broken();
    longest();
}
