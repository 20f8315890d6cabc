/* One call on the sheet in a file, for host/instructions. The status is 0 only if it is answered, or refused with 15.
 *
 *   once CALL FILE    a call from sheet to sheet, the page or a measure, by the driver's name; get_child for the last child of the first line; import_big,
 *                     export_big and strict_export_big are of big-endian metadata, which import_big's sheet is turned to before the call;
 *                     by_hand_import and by_hand_export are those of differential/by_hand */
#include <stdio.h>
#include <stdlib.h>
#include <string.h>

#include "arrow/juzontefa_arrow.h"

typedef struct juzontefa_answer call(const uint8_t *sheet, size_t sheet_len, uint8_t *out, size_t out_len);

/* The measures by hand in C: their answers are two numbers of 64 bits too. */
call by_hand_import, by_hand_export;

static uint8_t sheet[65536], out[1u << 19];
static size_t size;
static uint64_t last;

static struct juzontefa_answer child(const uint8_t *from, size_t length, uint8_t *to, size_t room)
{
    return juzontefa_get_child(from, length, last, to, room);
}

static struct juzontefa_answer import_big(const uint8_t *from, size_t length, uint8_t *to, size_t room)
{
    return juzontefa_import_with_order(from, length, JUZONTEFA_BIG_ENDIAN, to, room);
}

static struct juzontefa_answer export_big(const uint8_t *from, size_t length, uint8_t *to, size_t room)
{
    return juzontefa_export_with_order(from, length, JUZONTEFA_BIG_ENDIAN, to, room);
}

static struct juzontefa_answer strict_export(const uint8_t *from, size_t length, uint8_t *to, size_t room)
{
    return juzontefa_strict_export(from, length, JUZONTEFA_LITTLE_ENDIAN, to, room);
}

static struct juzontefa_answer strict_export_big(const uint8_t *from, size_t length, uint8_t *to, size_t room)
{
    return juzontefa_strict_export(from, length, JUZONTEFA_BIG_ENDIAN, to, room);
}

/* A measure writes nothing into the buffer. */
static struct juzontefa_answer measure_import(const uint8_t *from, size_t length, uint8_t *to, size_t room)
{
    (void)to, (void)room;
    struct juzontefa_measure m = juzontefa_measure_import(from, length, JUZONTEFA_LITTLE_ENDIAN);
    return (struct juzontefa_answer){ m.number, m.length };
}

static struct juzontefa_answer measure_export(const uint8_t *from, size_t length, uint8_t *to, size_t room)
{
    (void)to, (void)room;
    struct juzontefa_measure m = juzontefa_measure_export(from, length, JUZONTEFA_LITTLE_ENDIAN);
    return (struct juzontefa_answer){ m.number, m.length };
}

/* A mapping gets a buffer as long as its sheet: no answer is longer. */
static const struct {
    const char *name;
    call *call;
    int is_mapping;
} calls[] = {
    { "import", juzontefa_import, 0 },
    { "export", juzontefa_export, 0 },
    { "by_hand_import", by_hand_import, 0 },
    { "by_hand_export", by_hand_export, 0 },
    { "import_big", import_big, 0 },
    { "export_big", export_big, 0 },
    { "strict_export", strict_export, 0 },
    { "strict_export_big", strict_export_big, 0 },
    { "measure_import", measure_import, 0 },
    { "measure_export", measure_export, 0 },
    { "plain", juzontefa_plain_form, 0 },
    { "page", juzontefa_page, 0 },
    { "underlying_physical_type", juzontefa_underlying_physical_type, 1 },
    { "to_storage", juzontefa_to_storage, 1 },
    { "to_storage_recursive", juzontefa_to_storage_recursive, 1 },
    { "inner_dtype", juzontefa_inner_dtype, 1 },
    { "get_child", child, 1 },
};

/* The place of the last child of the first line: its last column is their count. */
static uint64_t last_child(const char *text)
{
    const char *line = strchr(text, '\n'), *end = line ? strchr(line + 1, '\n') : NULL;
    while (end && *end != ' ')
        end--;
    uint64_t count = end ? strtoull(end, NULL, 10) : 0;
    return count ? count - 1 : 0;
}

/* Makes the metadata of the schema sheet at hand big-endian: both orders are counted on one sheet. Whether it could be. */
static int turn(void)
{
    struct ArrowSchema schema;
    if (juzontefa_sheet_to_schema(sheet, size, &schema) != 0)
        return 0;
    struct juzontefa_walked turned = juzontefa_schema_to_sheet_with_order(&schema, JUZONTEFA_BIG_ENDIAN, sheet, sizeof sheet - 1);
    schema.release(&schema);
    size = turned.length;
    return turned.number == 0;
}

int main(int count, char **words)
{
    FILE *file = count == 3 ? fopen(words[2], "rb") : NULL;
    if (!file) {
        fprintf(stderr, "once: no sheet\n");
        return EXIT_FAILURE;
    }
    size = fread(sheet, 1, sizeof sheet - 1, file);
    fclose(file);
    last = last_child((const char *)sheet);
    if (strcmp(words[1], "import_big") == 0 && !turn()) {
        fprintf(stderr, "once: a sheet that cannot be turned\n");
        return EXIT_FAILURE;
    }
    for (size_t i = 0; i < sizeof calls / sizeof *calls; i++)
        if (strcmp(words[1], calls[i].name) == 0) {
            uint64_t number = calls[i].call(sheet, size, out, calls[i].is_mapping ? size : sizeof out).number;
            return number == 0 || number == 15 ? EXIT_SUCCESS : EXIT_FAILURE;
        }
    fprintf(stderr, "once: no call %s\n", words[1]);
    return EXIT_FAILURE;
}
