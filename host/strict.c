#include "strict.h"

#include <stdio.h>
#include <string.h>

#include "tries.h"

/* ── the calls in one form, for what is tried of each */

static uint64_t big;

static struct juzontefa_answer strict_export(const uint8_t *in, size_t in_len, uint8_t *to, size_t room)
{
    return juzontefa_strict_export(in, in_len, big, to, room);
}

static struct juzontefa_answer present_export(const uint8_t *in, size_t in_len, uint8_t *to, size_t room)
{
    return juzontefa_export_with_order(in, in_len, big, to, room);
}

static struct juzontefa_trip strict_trip(const uint8_t *in, size_t in_len, uint8_t *const out[4], const size_t room[4])
{
    return juzontefa_strict_round_trip(in, in_len, big, out[0], room[0], out[1], room[1], out[2], room[2], out[3], room[3]);
}

/* Every number but 0 is big-endian. */
static const uint64_t orders[] = { 0, 1, 2, 256, UINT64_C(1) << 63, UINT64_MAX };
#define ORDERS (sizeof orders / sizeof *orders)

#define N "4152524f573a657874656e73696f6e3a6e616d65"         /* ARROW:extension:name, 20 bytes */
#define M "4152524f573a657874656e73696f6e3a6d65746164617461" /* ARROW:extension:metadata, 24 bytes */
#define LEAF "0 0 0 ~ ~ - 0 ~ 0\n"
#define KEYED "0 0 0 ~ ~ - 0 " N "= 0\n"
#define BARE "0 0 0 ~ ~ ~ ~ ~ 0\n"
#define WIDE "32 4 0 ~ ~ - 0 ~ 1\n" BARE
#define TWO "30 0 0 ~ ~ - 0 ~ 2\n"
#define EXTENSION "37 0 0 78 ~ - 0 ~ 1\n"
#define HIDDEN EXTENSION "32 2 0 ~ ~ ~ ~ ~ 1\n" /* its values are never visited */

/* ── what is refused */

static const struct {
    const char *what, *lines;
    uint64_t number;
} refused[] = {
    { "the name's key", KEYED, 17 },
    { "the metadata's key", "0 0 0 ~ ~ - 0 " M "= 0\n", 17 },
    { "both keys among others", "0 0 0 ~ ~ - 0 41=," M "=79," N "=78,6d= 0\n", 17 },
    { "a key of an extension's own, with an equal value", "37 0 0 78 ~ - 0 " N "=78 1\n" BARE, 17 },
    { "its metadata's, with an equal value", "37 0 0 78 79 - 0 " M "=79 1\n" BARE, 17 },
    { "a key on a list", "27 0 0 ~ ~ - 0 " M "= 1\n" LEAF, 17 },
    { "a key on a list's item", "27 0 0 ~ ~ - 0 ~ 1\n" KEYED, 17 },
    { "a key on a map's item", "31 1 0 ~ ~ - 0 ~ 1\n" KEYED, 17 },
    { "a key on a union's last field", "41 0 0 ~ ~ - 0 ~ 2\n" LEAF KEYED, 17 },
    { "a key on a dictionary", "32 2 0 ~ ~ - 0 " N "= 1\n" BARE, 17 },
    { "a key below a dictionary's values", "32 2 0 ~ ~ - 0 ~ 1\n27 0 0 ~ ~ ~ ~ ~ 1\n" KEYED, 17 },
    { "a key that export never visits", HIDDEN "27 0 0 ~ ~ ~ ~ ~ 1\n" KEYED, 17 },
    { "an index Int128", "32 4 0 ~ ~ - 0 ~ 1\n" BARE, 18 },
    { "an index UInt128", "32 9 1 ~ ~ - 0 ~ 1\n" BARE, 18 },
    { "an index directly in an extension", EXTENSION "32 4 0 ~ ~ ~ ~ ~ 1\n" BARE, 18 },
    { "an index in two", EXTENSION "37 0 0 79 ~ ~ ~ ~ 1\n32 9 0 ~ ~ ~ ~ ~ 1\n" BARE, 18 },
    { "an index as a dictionary's values", "32 2 0 ~ ~ - 0 ~ 1\n32 9 0 ~ ~ ~ ~ ~ 1\n" BARE, 18 },
    { "an index that export never visits", HIDDEN "32 9 0 ~ ~ ~ ~ ~ 1\n" BARE, 18 },
    /* the first line with either; on one line the key */
    { "both on one line", "32 4 0 ~ ~ - 0 " N "= 1\n" BARE, 17 },
    { "an index, then a key", TWO WIDE KEYED, 18 },
    { "a key, then an index", TWO KEYED WIDE, 17 },
    { "an index over a key", "32 4 0 ~ ~ - 0 ~ 1\n27 0 0 ~ ~ ~ ~ ~ 1\n" KEYED, 18 },
    { "a hidden index, then a key", TWO HIDDEN "32 9 0 ~ ~ ~ ~ ~ 1\n" BARE KEYED, 18 },
    /* before 12, 13 and 14, after 2 */
    { "before a type without a format", TWO "40 0 0 ~ ~ - 0 ~ 0\n" KEYED, 17 },
    { "before a union without ids", TWO "41 0 0 - ~ - 0 ~ 0\n" WIDE, 18 },
    { "before byte 00 in a name", "30 0 0 ~ ~ 00 0 ~ 2\n40 0 0 ~ ~ - 0 ~ 0\n0 0 0 ~ ~ - 0 " M "= 0\n", 17 },
    { "all of it on one line", "40 0 0 ~ ~ 00 0 " N "= 0\n", 17 },
    { "after a broken line", TWO KEYED "0 0 0 ~ ~ - 2 ~ 0\n", 2 },
    { "after a missing line", TWO KEYED, 2 },
    { "after a line left over", KEYED LEAF, 2 },
    /* where there is neither */
    { "a type without a format", "40 0 0 ~ ~ - 0 ~ 0\n", 12 },
    { "a union without ids", "41 0 0 - ~ - 0 ~ 0\n", 13 },
    { "byte 00 in a name", "0 0 0 ~ ~ 00 0 ~ 0\n", 14 },
};

static void refusals(void)
{
    char field[512];
    for (size_t i = 0; i < sizeof refused / sizeof *refused; i++) {
        snprintf(field, sizeof field, FIELD "%s", refused[i].lines);
        for (size_t j = 0; j < ORDERS; j++) {
            big = orders[j];
            text(strict_export, refused[i].what, field, refused[i].number);
            expect(strict_export, refused[i].what, (const uint8_t *)field, strlen(field), 0, refused[i].number, NULL);
            expect(strict_export, refused[i].what, (const uint8_t *)field, strlen(field), 1, refused[i].number, NULL);
            expect_trip(strict_trip, refused[i].what, field, wide, JUZONTEFA_EXPORT_REFUSED, refused[i].number, NULL);
            expect_trip(strict_trip, refused[i].what, field, none, JUZONTEFA_EXPORT_REFUSED, refused[i].number, NULL);
        }
    }
}

/* 33 levels with a key on each. */
static void too_deep(void)
{
    many((char *)sheet, FIELD, 32, "27 0 0 ~ ~ - 0 " N "= 1\n");
    strcat((char *)sheet, KEYED);
    for (big = 0; big < 2; big++) {
        text(strict_export, "33 levels with keys", (char *)sheet, 3);
        expect_trip(strict_trip, "33 levels with keys", (char *)sheet, wide, JUZONTEFA_EXPORT_REFUSED, 3, NULL);
    }
}

/* ── what is answered: as by the present export, and it comes back */

/* A field that is its own plain form, but where that is told. */
static const struct {
    const char *what, *field, *little, *big, *plain;
} answers[] = {
    { "a longer key", "0 0 0 ~ ~ - 0 " N "73= 0\n", "6e - 0 0100000015000000" N "7300000000 0 0\n", "6e - 0 0000000100000015" N "7300000000 0 0\n", NULL },
    { "a shorter key", "0 0 0 ~ ~ - 0 4152524f573a657874656e73696f6e3a6e616d=78 0\n",
      "6e - 0 01000000130000004152524f573a657874656e73696f6e3a6e616d0100000078 0 0\n",
      "6e - 0 00000001000000134152524f573a657874656e73696f6e3a6e616d0000000178 0 0\n", NULL },
    { "a key of other case", "0 0 0 ~ ~ - 0 6172726f773a657874656e73696f6e3a6e616d65= 0\n",
      "6e - 0 01000000140000006172726f773a657874656e73696f6e3a6e616d6500000000 0 0\n",
      "6e - 0 00000001000000146172726f773a657874656e73696f6e3a6e616d6500000000 0 0\n", NULL },
    { "a key as a value", "0 0 0 ~ ~ - 0 6d=" N " 0\n", "6e - 0 01000000010000006d14000000" N " 0 0\n", "6e - 0 00000001000000016d00000014" N " 0 0\n", NULL },
    { "the type Int128", "6 0 0 ~ ~ - 0 ~ 0\n", "5f706c69313238 - 0 ~ 0 0\n", "5f706c69313238 - 0 ~ 0 0\n", NULL },
    { "an index Int64 over UInt128", "32 3 0 ~ ~ - 0 ~ 1\n11 0 0 ~ ~ ~ ~ ~ 0\n", "6c - 0 ~ 0 1\n5f706c75313238 - 2 ~ 0 0\n",
      "6c - 0 ~ 0 1\n5f706c75313238 - 2 ~ 0 0\n", NULL },
    { "an extension", EXTENSION BARE, "6e - 0 0100000014000000" N "0100000078 0 0\n", "6e - 0 0000000100000014" N "0000000178 0 0\n", NULL },
    { "a dictionary in an extension, over what is not visited", HIDDEN "27 0 0 ~ ~ ~ ~ ~ 1\n40 0 0 ~ ~ 00 0 ~ 0\n",
      "69 - 0 0100000014000000" N "0100000078 0 0\n", "69 - 0 0000000100000014" N "0000000178 0 0\n", EXTENSION "4 0 0 ~ ~ ~ ~ ~ 0\n" },
};

static void answered_fields(void)
{
    char field[512], schema[512], plain[512];
    const char *const sheets[4] = { schema, plain, plain, schema };
    for (size_t i = 0; i < sizeof answers / sizeof *answers; i++) {
        snprintf(field, sizeof field, FIELD "%s", answers[i].field);
        snprintf(plain, sizeof plain, FIELD "%s", answers[i].plain ? answers[i].plain : answers[i].field);
        for (size_t j = 0; j < ORDERS; j++) {
            big = orders[j];
            snprintf(schema, sizeof schema, SCHEMA "%s", big ? answers[i].big : answers[i].little);
            answered(strict_export, answers[i].what, (const uint8_t *)field, strlen(field), schema);
            answered(present_export, answers[i].what, (const uint8_t *)field, strlen(field), schema);
            comes_back(strict_trip, answers[i].what, field, sheets);
        }
    }
}

/* What is left to the caller: a sheet that is too long to be handed in. The present export takes what the strict one refuses. */
static void left_to_the_caller(void)
{
    for (big = 0; big < 2; big++) {
        size_t in = many((char *)sheet, FIELD "30 0 0 ~ ~ - 0 ~ 700\n", 700, "37 0 0 - - - 0 ~ 1\n6 0 0 ~ ~ ~ ~ ~ 0\n");
        struct juzontefa_measure m = juzontefa_measure_export(sheet, in, big);
        struct juzontefa_answer a = strict_export(sheet, in, (uint8_t *)expected, sizeof expected);
        count(a.number == 0 && a.length == m.length && m.length > LONGEST, "an answer longer than a sheet may be", a.number, a.length);
        expect_trip(strict_trip, "an export too long to hand in", (char *)sheet, wide, JUZONTEFA_IMPORT_REFUSED, 1, NULL);
        many((char *)sheet, FIELD "41 0 0 ~ ~ - 0 ~ 1000\n", 1000, "14 0 0 ~ ~ 61616161616161616161616161616161616161616161 0 ~ 0\n");
        expect_trip(strict_trip, "a plain form too long to hand in", (char *)sheet, wide, JUZONTEFA_AGAIN_REFUSED, 1, NULL);
        const char *of_key = SCHEMA "6e - 0 0100000014000000" N "00000000 0 0\n", *of_key_big = SCHEMA "6e - 0 0000000100000014" N "00000000 0 0\n";
        answered(present_export, "the present export of a key", (const uint8_t *)FIELD KEYED, strlen(FIELD KEYED), big ? of_key_big : of_key);
        answered(present_export, "the present export of an index", (const uint8_t *)FIELD WIDE, strlen(FIELD WIDE),
                 SCHEMA "5f706c69313238 - 0 ~ 0 1\n6e - 2 ~ 0 0\n");
    }
}

void strict_exports(void)
{
    refusals();
    too_deep();
    answered_fields();
    left_to_the_caller();
    for (big = 0; big < 2; big++)
        broken_sheets(strict_export, FIELD, "27 0 0 ~ ~ 70 1 ~ 1\n", "14 0 0 ~ ~ 69 0 ~ 0\n");
}
