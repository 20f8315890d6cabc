/* A fuzzer's entry for juzontefa_arrow.c: any bytes as a sheet of either kind, and as the recipe of a struct; but for the last byte, which says the order of
 * the sheet's metadata. Memory is exact, so that the address sanitizer sees a read or write past it. `host/fuzz` links it with libFuzzer's main, the sanitizers and the
 * library. */
#include <stdint.h>
#include <stdlib.h>
#include <string.h>

#include "juzontefa_arrow.h"

#define LIMIT JUZONTEFA_LONGEST_SHEET

static void require(int holds)
{
    if (!holds)
        abort();
}

static void *copy_of(const void *bytes, size_t size)
{
    void *copy = malloc(size ? size : 1);
    if (!copy)
        exit(EXIT_FAILURE);
    if (size)
        memcpy(copy, bytes, size);
    return copy;
}

/* ── a field sheet: refused as strict export is, or too long for structs; else the struct, walked and imported, is the plain form */

static void as_field(const uint8_t *data, size_t size)
{
    static uint8_t sheet[JUZONTEFA_EXPORT_ROOM(LIMIT)], back[LIMIT], plain[JUZONTEFA_PLAIN_FORM_ROOM(LIMIT)], again[JUZONTEFA_IMPORT_ROOM(LIMIT)];
    uint8_t *field = copy_of(data, size);
    struct ArrowSchema schema;
    uint64_t number = juzontefa_strict_field_to_schema(field, size, &schema);
    struct juzontefa_answer exported = juzontefa_strict_export(field, size, JUZONTEFA_LITTLE_ENDIAN, sheet, sizeof sheet);
    struct juzontefa_answer form = juzontefa_plain_form(field, size, plain, sizeof plain);
    require(memcmp(field, data, size) == 0);
    free(field);
    if (number != 0) {
        require(!schema.release && number == (exported.number == 0 && exported.length > LIMIT ? JUZONTEFA_NOT_SHEET : exported.number));
        return;
    }
    struct juzontefa_walked walked = juzontefa_schema_to_sheet(&schema, back, sizeof back);
    require(exported.number == 0 && walked.number == 0 && walked.length == exported.length && memcmp(back, sheet, walked.length) == 0);
    struct juzontefa_answer imported = juzontefa_import(back, walked.length, again, sizeof again);
    require(imported.number == 0 && form.number == 0 && imported.length == form.length && memcmp(again, plain, form.length) == 0);
    schema.release(&schema);
    require(!schema.release);
}

/* ── a sheet: 1, 2 and 3 as import says; else the struct walked back, in either order, imports to the same bytes; and what was imported is a field */

static void as_sheet(const uint8_t *data, size_t size, uint64_t big)
{
    static uint8_t back[LIMIT], field[JUZONTEFA_IMPORT_ROOM(LIMIT)], again[JUZONTEFA_IMPORT_ROOM(LIMIT)];
    uint8_t *sheet = copy_of(data, size);
    struct ArrowSchema schema;
    uint64_t number = juzontefa_sheet_to_schema_with_order(sheet, size, big, &schema);
    struct juzontefa_answer answer = juzontefa_import_with_order(sheet, size, big, field, sizeof field);
    require(memcmp(sheet, data, size) == 0);
    free(sheet);
    if (answer.number == 0)
        as_field(field, answer.length);
    if (number != 0) {
        require(!schema.release);
        if (number <= JUZONTEFA_TOO_DEEP)
            require(answer.number == number);
        else
            require((number == JUZONTEFA_NULL_FORMAT || number == JUZONTEFA_BAD_METADATA) && (answer.number == 0 || answer.number > JUZONTEFA_TOO_DEEP));
        return;
    }
    for (uint64_t order = 0; order < 2; order++) {
        struct juzontefa_walked walked = juzontefa_schema_to_sheet_with_order(&schema, order, back, sizeof back);
        require(walked.number == 0 && walked.length <= size);
        struct juzontefa_answer other = juzontefa_import_with_order(back, walked.length, order, again, sizeof again);
        require(other.number == answer.number && other.length == answer.length && memcmp(field, again, answer.length) == 0);
    }
    schema.release(&schema);
    require(!schema.release);
}

/* ── a struct by a recipe */

struct recipe {
    const uint8_t *at, *end;
    int nodes; /* that may still be made */
};

static uint8_t next(struct recipe *r)
{
    return r->at < r->end ? *r->at++ : 0;
}

/* A text of up to 15 bytes of the recipe, or null. */
static char *next_text(struct recipe *r)
{
    uint8_t size = next(r);
    char text[16] = { 0 };
    if (size == 255)
        return NULL;
    for (int i = 0; i < size % 16; i++)
        text[i] = (char)next(r);
    return copy_of(text, strlen(text) + 1);
}

/* A block whose words are the recipe's: exactly the bytes that it announces, up to a negative length or one that no sheet holds. */
static char *next_block(struct recipe *r)
{
    static char block[2 * LIMIT];
    static const int32_t odd[] = { -1, INT32_MIN, INT32_MAX, 32768, 65536, 4096 };
    uint8_t kind = next(r);
    if (kind % 4 == 0)
        return NULL;
    int32_t count = kind % 4 == 1 ? odd[next(r) % 5] : next(r) % 4;
    size_t size = 4;
    memcpy(block, &count, 4);
    for (int texts = count > 0 && count < 16 ? 2 * count : 0; texts > 0; texts--) {
        int32_t length = next(r);
        if (length >= 250)
            length = odd[length - 250];
        memcpy(block + size, &length, 4);
        size += 4;
        if (length < 0 || length > 32767)
            break;
        memset(block + size, next(r), (size_t)length);
        size += (size_t)length;
    }
    return copy_of(block, size);
}

/* Releases what a recipe made; the structs that are released already were not to be touched. */
static void release_made(struct ArrowSchema *s)
{
    struct ArrowSchema **children = s->private_data;
    for (size_t i = 0; children && children[i] != s; i++)
        if (children[i]->private_data)
            release_made(children[i]);
    for (size_t i = 0; children && children[i] != s; i++)
        free(children[i]);
    free(children);
    free((void *)s->format);
    free((void *)s->name);
    free((void *)s->metadata);
    free(s->children);
    s->release = NULL;
}

static void make(struct recipe *r, struct ArrowSchema *s, int levels)
{
    static const int64_t odd[] = { -1, INT64_MIN, INT64_MAX, LIMIT / 12 + 1 };
    memset(s, 0, sizeof *s);
    s->format = next_text(r);
    s->name = next_text(r);
    s->metadata = next_block(r);
    s->flags = (int64_t)((uint64_t)next(r) << 56 | next(r));
    s->release = release_made;
    size_t count = next(r) % 8, made = 0;
    /* what is made is kept here, ended by the struct itself, whatever the struct says */
    struct ArrowSchema **kept = copy_of(&s, sizeof s);
    s->private_data = kept;
    if (levels > 0 && r->nodes > 0 && count > 0) {
        s->children = malloc(count * sizeof *s->children);
        for (; made < count; made++) {
            kept = realloc(kept, (made + 3) * sizeof *kept);
            if (!kept || !s->children)
                exit(EXIT_FAILURE);
            kept[made] = malloc(sizeof **kept);
            if (!kept[made])
                exit(EXIT_FAILURE);
            r->nodes--;
            make(r, kept[made], r->nodes > 0 ? levels - 1 : 0);
            kept[made + 1] = s;
            s->children[made] = kept[made];
        }
        s->private_data = kept;
        s->n_children = (int64_t)made;
        uint8_t twist = next(r);
        if (twist == 250)
            s->children[0] = NULL;
        if (twist == 251)
            s->children[made - 1]->release = NULL;
        if (twist == 252) {
            free(s->children);
            s->children = NULL;
        }
        if (twist == 253)
            s->n_children = odd[next(r) % 4];
        if (twist == 254)
            s->children[0] = s; /* its own child */
        if (twist >= 128 && twist < 192 && made > 1) {
            s->dictionary = s->children[made - 1];
            s->n_children--;
        }
    }
}

static void as_struct(const uint8_t *data, size_t size, uint64_t big)
{
    struct recipe r = { data, data + size, 40 };
    struct ArrowSchema *made = malloc(sizeof *made), back;
    if (!made)
        exit(EXIT_FAILURE);
    make(&r, made, 36);
    struct juzontefa_walked walked = juzontefa_schema_to_sheet_with_order(made, big, NULL, 0);
    require(walked.length == 0 && ((walked.number != 0 && walked.number <= JUZONTEFA_TOO_DEEP) || walked.number == JUZONTEFA_NO_ROOM));
    require((walked.number == JUZONTEFA_NO_ROOM) == (walked.needed != 0) && walked.needed <= LIMIT);
    if (walked.number == JUZONTEFA_NO_ROOM) {
        uint8_t *sheet = malloc(walked.needed), *again = malloc(walked.needed);
        if (!sheet || !again)
            exit(EXIT_FAILURE);
        struct juzontefa_walked whole = juzontefa_schema_to_sheet_with_order(made, big, sheet, walked.needed);
        require(whole.number == 0 && whole.length == walked.needed && whole.needed == walked.needed);
        uint64_t number = juzontefa_sheet_to_schema_with_order(sheet, whole.length, big, &back);
        require(number == 0 || number == JUZONTEFA_NULL_FORMAT || number == JUZONTEFA_BAD_METADATA);
        if (number == 0) {
            whole = juzontefa_schema_to_sheet_with_order(&back, big, again, walked.needed);
            require(whole.number == 0 && whole.length == walked.needed && memcmp(sheet, again, whole.length) == 0);
            back.release(&back);
        }
        free(sheet);
        free(again);
    }
    release_made(made);
    free(made);
}

int LLVMFuzzerTestOneInput(const uint8_t *data, size_t size)
{
    uint64_t big = 0;
    if (size > 0) {
        size--;
        big = data[size];
    }
    as_field(data, size);
    as_sheet(data, size, big);
    as_struct(data, size, big);
    return 0;
}
