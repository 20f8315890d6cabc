#include "orders.h"

#include <stdio.h>
#include <string.h>

#include "tries.h"

/* ── the calls with an order in one form, for what is tried of each */

static uint64_t big;

static struct juzontefa_answer import_in_order(const uint8_t *in, size_t in_len, uint8_t *to, size_t room)
{
    return juzontefa_import_with_order(in, in_len, big, to, room);
}

static struct juzontefa_answer export_in_order(const uint8_t *in, size_t in_len, uint8_t *to, size_t room)
{
    return juzontefa_export_with_order(in, in_len, big, to, room);
}

static struct juzontefa_trip trip_in_order(const uint8_t *in, size_t in_len, uint8_t *const out[4], const size_t room[4])
{
    return juzontefa_round_trip_with_order(in, in_len, big, out[0], room[0], out[1], room[1], out[2], room[2], out[3], room[3]);
}

/* Every number but 0 is big-endian: also those whose least significant bit, byte or half is 0. */
static const uint64_t bigs[] = { 1, 2, 255, 256, UINT64_C(1) << 32, UINT64_C(1) << 63, UINT64_MAX };
#define BIGS (sizeof bigs / sizeof *bigs)

/* ── import: blocks of a field of kind Null without a name, and what becomes of each in either order */

#define NONE "~"
#define NAME_KEY "4152524f573a657874656e73696f6e3a6e616d65" /* ARROW:extension:name, 20 bytes */
#define METADATA_KEY "4152524f573a657874656e73696f6e3a6d65746164617461" /* ARROW:extension:metadata, 24 bytes */

/* The pairs, or the number of the refusal where there are none. */
struct read {
    uint64_t number;
    const char *pairs;
};

static const struct {
    const char *what, *block;
    struct read little, big;
} blocks[] = {
    { "a pair, big-endian", "00000001000000016d0000000131", { 11, NULL }, { 0, "6d=31" } },
    { "a pair, little-endian", "01000000010000006d0100000031", { 0, "6d=31" }, { 11, NULL } },
    { "a byte past the last pair, big-endian", "00000001000000016d0000000131ff", { 11, NULL }, { 0, "6d=31" } },
    { "a byte past the last pair, little-endian", "01000000010000006d0100000031ff", { 0, "6d=31" }, { 11, NULL } },
    { "one key twice, big-endian", "00000002000000016d0000000131000000016d0000000132", { 11, NULL }, { 0, "6d=32" } },
    { "one key twice, little-endian", "02000000010000006d0100000031010000006d0100000032", { 0, "6d=32" }, { 11, NULL } },
    { "a pair of nothing, big-endian", "000000010000000000000000", { 11, NULL }, { 0, "=" } },
    { "a pair of nothing, little-endian", "010000000000000000000000", { 0, "=" }, { 11, NULL } },
    /* the sign is the most significant bit: of the last byte, or of the first */
    { "a count that is negative in big-endian", "80000000", { 11, NULL }, { 0, NONE } },
    { "a count that is negative in little-endian", "00000080", { 0, NONE }, { 11, NULL } },
    { "a count of -1", "ffffffff", { 0, NONE }, { 0, NONE } },
    { "a count of 0", "00000000", { 0, NONE }, { 0, NONE } },
    { "a length that is negative in big-endian", "0000000180000000", { 11, NULL }, { 11, NULL } },
    { "a length that is negative in little-endian", "0100000000000080", { 11, NULL }, { 11, NULL } },
    { "a value's length of -1, big-endian", "00000001000000016dffffffff", { 11, NULL }, { 11, NULL } },
    { "a value's length of -1, little-endian", "01000000010000006dffffffff", { 11, NULL }, { 11, NULL } },
    /* 5 only of bytes that are there */
    { "a key that is not UTF-8, big-endian", "0000000100000001ff", { 11, NULL }, { 5, NULL } },
    { "a key that is not UTF-8, little-endian", "0100000001000000ff", { 5, NULL }, { 11, NULL } },
    { "a value that is not UTF-8, big-endian", "00000001000000016d00000001ff", { 11, NULL }, { 5, NULL } },
    { "a value that is not UTF-8, little-endian", "01000000010000006d01000000ff", { 5, NULL }, { 11, NULL } },
    { "a key cut short, big-endian", "0000000100000002ff", { 11, NULL }, { 11, NULL } },
    { "a key cut short, little-endian", "0100000002000000ff", { 11, NULL }, { 11, NULL } },
    { "no bytes", "-", { 11, NULL }, { 11, NULL } },
    { "a count of three bytes", "000000", { 11, NULL }, { 11, NULL } },
    { "no metadata", "~", { 0, NONE }, { 0, NONE } },
};

static void reads(call *call, const char *what, const char *block, struct read read)
{
    char schema[256], field[256];
    snprintf(schema, sizeof schema, SCHEMA "6e - 0 %s 0 0\n", block);
    if (read.number != 0) {
        text(call, what, schema, read.number);
        expect(call, what, (const uint8_t *)schema, strlen(schema), 0, read.number, NULL);
        return;
    }
    snprintf(field, sizeof field, FIELD "0 0 0 ~ ~ - 0 %s 0\n", read.pairs);
    answered(call, what, (const uint8_t *)schema, strlen(schema), field);
}

static void imports(void)
{
    for (size_t i = 0; i < sizeof blocks / sizeof *blocks; i++) {
        reads(juzontefa_import, blocks[i].what, blocks[i].block, blocks[i].little);
        big = 0;
        reads(import_in_order, blocks[i].what, blocks[i].block, blocks[i].little);
        for (size_t j = 0; j < BIGS; j++) {
            big = bigs[j];
            reads(import_in_order, blocks[i].what, blocks[i].block, blocks[i].big);
        }
    }
}

/* ── export, and out and back */

static const struct {
    const char *what, *field, *little, *big, *plain;
} fields[] = {
    { "no pairs", FIELD "0 0 0 ~ ~ - 0 - 0\n", SCHEMA "6e - 0 ~ 0 0\n", SCHEMA "6e - 0 ~ 0 0\n", FIELD "0 0 0 ~ ~ - 0 ~ 0\n" },
    { "a pair", FIELD "0 0 0 ~ ~ - 0 6d=31 0\n", SCHEMA "6e - 0 01000000010000006d0100000031 0 0\n",
      SCHEMA "6e - 0 00000001000000016d0000000131 0 0\n", FIELD "0 0 0 ~ ~ - 0 6d=31 0\n" },
    { "an extension", FIELD "37 0 0 78 ~ - 0 ~ 1\n0 0 0 ~ ~ ~ ~ ~ 0\n", SCHEMA "6e - 0 0100000014000000" NAME_KEY "0100000078 0 0\n",
      SCHEMA "6e - 0 0000000100000014" NAME_KEY "0000000178 0 0\n", FIELD "37 0 0 78 ~ - 0 ~ 1\n0 0 0 ~ ~ ~ ~ ~ 0\n" },
    { "an extension with metadata, a pair and an empty value", FIELD "37 0 0 78 79 70 1 6d=,6e=3132 1\n4 0 0 ~ ~ ~ ~ ~ 0\n",
      SCHEMA "69 70 2 0400000018000000" METADATA_KEY "010000007914000000" NAME_KEY "0100000078010000006d00000000010000006e020000003132 0 0\n",
      SCHEMA "69 70 2 0000000400000018" METADATA_KEY "000000017900000014" NAME_KEY "0000000178000000016d00000000000000016e000000023132 0 0\n",
      FIELD "37 0 0 78 79 70 1 6d=,6e=3132 1\n4 0 0 ~ ~ ~ ~ ~ 0\n" },
    { "pairs on every line", FIELD "30 0 0 ~ ~ 73 0 61= 2\n32 2 1 ~ ~ 64 0 62= 1\n25 0 0 ~ ~ ~ ~ ~ 0\n27 0 0 ~ ~ 6c 1 63= 1\n14 0 0 ~ ~ 69 0 64= 0\n",
      SCHEMA "2b73 73 0 01000000010000006100000000 2 0\n69 64 1 01000000010000006200000000 0 1\n75 - 2 ~ 0 0\n"
             "2b6c 6c 2 01000000010000006300000000 1 0\n67 69 0 01000000010000006400000000 0 0\n",
      SCHEMA "2b73 73 0 00000001000000016100000000 2 0\n69 64 1 00000001000000016200000000 0 1\n75 - 2 ~ 0 0\n"
             "2b6c 6c 2 00000001000000016300000000 1 0\n67 69 0 00000001000000016400000000 0 0\n",
      FIELD "30 0 0 ~ ~ 73 0 61= 2\n32 2 1 ~ ~ 64 0 62= 1\n25 0 0 ~ ~ ~ ~ ~ 0\n27 0 0 ~ ~ 6c 1 63= 1\n14 0 0 ~ ~ 69 0 64= 0\n" },
};

/* Export of the field, import of that and the round trip, under one order. */
static void under_order(size_t i, uint64_t order)
{
    const char *field = fields[i].field, *plain = fields[i].plain, *exported = order == 0 ? fields[i].little : fields[i].big;
    const char *const sheets[4] = { exported, plain, plain, exported };
    big = order;
    answered(export_in_order, fields[i].what, (const uint8_t *)field, strlen(field), exported);
    answered(import_in_order, fields[i].what, (const uint8_t *)exported, strlen(exported), plain);
    comes_back(trip_in_order, fields[i].what, field, sheets);
}

static void exports(void)
{
    for (size_t i = 0; i < sizeof fields / sizeof *fields; i++) {
        answered(juzontefa_export, fields[i].what, (const uint8_t *)fields[i].field, strlen(fields[i].field), fields[i].little);
        count(strlen(fields[i].little) == strlen(fields[i].big), "an export is as long in either order", strlen(fields[i].little), strlen(fields[i].big));
        under_order(i, 0);
        for (size_t j = 0; j < BIGS; j++)
            under_order(i, bigs[j]);
    }
}

/* What a round trip refuses, and where it differs, is the same in either order. */
static void other_trips(void)
{
#define KEYED FIELD "4 0 0 ~ ~ 70 1 " NAME_KEY "=78 0\n"
#define EXTENDED FIELD "37 0 0 78 ~ 70 1 ~ 1\n4 0 0 ~ ~ ~ ~ ~ 0\n"
    static const char *const exported[2] = { SCHEMA "69 70 2 0100000014000000" NAME_KEY "0100000078 0 0\n",
                                             SCHEMA "69 70 2 0000000100000014" NAME_KEY "0000000178 0 0\n" };
    for (big = 0; big < 2; big++) {
        const char *const kept[4] = { exported[big], EXTENDED, KEYED, exported[big] };
        expect_trip(trip_in_order, "null and empty", NULL, wide, JUZONTEFA_EXPORT_REFUSED, 1, NULL);
        expect_trip(trip_in_order, "null, empty and no buffers", NULL, none, JUZONTEFA_EXPORT_REFUSED, 1, NULL);
        expect_trip(trip_in_order, "no line", FIELD, wide, JUZONTEFA_EXPORT_REFUSED, 2, NULL);
        expect_trip(trip_in_order, "byte 00 in a name", FIELD "4 0 0 ~ ~ 00 1 6d=31 0\n", wide, JUZONTEFA_EXPORT_REFUSED, 14, NULL);
        expect_trip(trip_in_order, "an index of 128 bits", FIELD "32 4 0 ~ ~ 70 1 6d=31 1\n25 0 0 ~ ~ ~ ~ ~ 0\n", wide, JUZONTEFA_IMPORT_REFUSED, 9, NULL);
        expect_trip(trip_in_order, "a reserved key", KEYED, wide, JUZONTEFA_IMPORT_DIFFERS, 0, kept);
    }
}

/* ── written in one order and read in the other: nothing is promised, but the answers are what the block says in the order that it is read in */

/* A field of so many pairs, keys of two bytes without values, exported in one order into `sheet`; the length. */
static size_t exported_pairs(int pairs, uint64_t order)
{
    size_t length = (size_t)sprintf(expected, FIELD "0 0 0 ~ ~ - 0 ");
    for (int i = 0; i < pairs; i++)
        length += (size_t)sprintf(expected + length, "%s%02x%02x=", i ? "," : "", 48 + i / 64, 48 + i % 64);
    length += (size_t)sprintf(expected + length, " 0\n");
    struct juzontefa_answer a = juzontefa_export_with_order((const uint8_t *)expected, length, order, sheet, sizeof sheet);
    count(a.number == 0, "pairs to be read in the other order", a.number, a.length);
    return a.length;
}

static void mixed(void)
{
    for (uint64_t written = 0; written < 2; written++) {
        size_t length = exported_pairs(1, written);
        big = written;
        expect(import_in_order, "one pair in its order", sheet, length, ROOM, 0, expected);
        big = !written;
        expect(import_in_order, "one pair in the other order", sheet, length, ROOM, 11, NULL);
        expect(import_in_order, "one pair in the other order and no buffer", sheet, length, 0, 11, NULL);
        /* the byte 80 of the count is least significant in the one order, and the sign in the other */
        length = exported_pairs(128, written);
        big = written;
        expect(import_in_order, "128 pairs in their order", sheet, length, ROOM, 0, expected);
        big = !written;
        expect(import_in_order, "128 pairs in the other order", sheet, length, ROOM, 0, FIELD "0 0 0 ~ ~ - 0 ~ 0\n");
    }
}

void orders(void)
{
    imports();
    exports();
    other_trips();
    mixed();
    for (big = 0; big < 2; big++) {
        broken_sheets(import_in_order, SCHEMA, "2b6c 70 2 ~ 1 0\n", "67 69 0 ~ 0 0\n");
        broken_sheets(export_in_order, FIELD, "27 0 0 ~ ~ 70 1 ~ 1\n", "14 0 0 ~ ~ 69 0 ~ 0\n");
    }
}
