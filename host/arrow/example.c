/* The way of docs/HOST.md: an ArrowSchema that a producer handed over, to a field sheet and back to an ArrowSchema of our own. Prints the field sheet. */
#include <stdio.h>
#include <stdlib.h>

#include "juzontefa_arrow.h"

static void release_nothing(struct ArrowSchema *schema)
{
    schema->release = NULL;
}

/* The field sheet of a schema, in memory of its own; NULL with a number where there is none. */
static uint8_t *field_of(const struct ArrowSchema *schema, size_t *length, uint64_t *number)
{
    /* no sheet is longer, so that 16 cannot come */
    static uint8_t sheet[JUZONTEFA_LONGEST_SHEET];
    struct juzontefa_walked walked = juzontefa_schema_to_sheet(schema, sheet, sizeof sheet);
    *number = walked.number;
    if (walked.number != 0)
        return NULL;
    size_t room = JUZONTEFA_IMPORT_ROOM(walked.length);
    uint8_t *field = malloc(room);
    if (!field) {
        *number = JUZONTEFA_NO_MEMORY;
        return NULL;
    }
    struct juzontefa_answer answer = juzontefa_import(sheet, walked.length, field, room);
    *number = answer.number;
    *length = answer.length;
    if (answer.number == 0)
        return field;
    free(field);
    return NULL;
}

/* The ArrowSchema of a field sheet. */
static uint64_t schema_of(const uint8_t *field, size_t length, struct ArrowSchema *schema)
{
    size_t room = JUZONTEFA_EXPORT_ROOM(length);
    uint8_t *sheet = malloc(room);
    if (!sheet)
        return JUZONTEFA_NO_MEMORY;
    struct juzontefa_answer answer = juzontefa_export(field, length, sheet, room);
    uint64_t number = answer.number;
    if (number == 0)
        number = juzontefa_sheet_to_schema(sheet, answer.length, schema);
    free(sheet);
    return number;
}

int main(void)
{
    struct ArrowSchema item = { .format = "g", .name = "item", .release = release_nothing };
    struct ArrowSchema *items[] = { &item };
    struct ArrowSchema peak = { .format = "+l", .name = "peak", .flags = ARROW_FLAG_NULLABLE, .n_children = 1, .children = items, .release = release_nothing };

    size_t length;
    uint64_t number;
    uint8_t *field = field_of(&peak, &length, &number);
    if (!field) {
        fprintf(stderr, "refused %llu\n", (unsigned long long)number);
        return EXIT_FAILURE;
    }
    fwrite(field, 1, length, stdout);
    struct ArrowSchema back;
    number = schema_of(field, length, &back);
    free(field);
    if (number != 0) {
        fprintf(stderr, "refused %llu\n", (unsigned long long)number);
        return EXIT_FAILURE;
    }
    printf("%s %s of %s %s\n", back.format, back.name, back.children[0]->format, back.children[0]->name);
    back.release(&back);
    return EXIT_SUCCESS;
}
