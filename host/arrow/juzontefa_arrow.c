#include "juzontefa_arrow.h"

#include <stdlib.h>
#include <string.h>

#define SHEET_LIMIT 65535
#define LEVELS 32
/* The shortest line is `~ ~ 0 ~ 0 0` and byte 10. */
#define SHORTEST_LINE 12

static const char heading[] = "format name flags metadata children dictionary\n";
#define HEADING_LENGTH (sizeof heading - 1)

/* ── the metadata block: a count, then length, key, length, value */

/* In a struct, where words are of this machine's order: copied, so that no machine's order need be known here. */
static int32_t native_word(const char *at)
{
    int32_t word;
    memcpy(&word, at, sizeof word);
    return word;
}

/* ── ArrowSchema to sheet */

/* What is written so far: `length` goes on counting where the buffer is used up. */
struct writer {
    uint8_t *out;
    size_t room;
    size_t length;
    int big;      /* the sheet's blocks are big-endian */
    int broken;   /* a struct that cannot be a line was met */
    int too_deep; /* a struct below 32 levels was met */
};

static void put(struct writer *w, const char *bytes, size_t count)
{
    if (w->length < w->room) {
        size_t left = w->room - w->length;
        memcpy(w->out + w->length, bytes, count < left ? count : left);
    }
    w->length += count;
}

static int over_limit(const struct writer *w)
{
    return w->length > SHEET_LIMIT;
}

static void put_hex(struct writer *w, const char *bytes, size_t count)
{
    static const char digits[] = "0123456789abcdef";
    for (size_t i = 0; i < count; i++) {
        unsigned char byte = (unsigned char)bytes[i];
        char pair[2] = { digits[byte >> 4], digits[byte & 15] };
        put(w, pair, 2);
    }
}

/* A text that ends in byte 00, read no further than a sheet can hold. */
static void put_text(struct writer *w, const char *text)
{
    if (!text) {
        put(w, "~", 1);
        return;
    }
    if (!*text)
        put(w, "-", 1);
    for (; *text && !over_limit(w); text++)
        put_hex(w, text, 1);
}

static void put_number(struct writer *w, int64_t number)
{
    char digits[20];
    size_t at = sizeof digits;
    /* the magnitude without overflow at the least number */
    uint64_t left = number < 0 ? 0 - (uint64_t)number : (uint64_t)number;
    do
        digits[--at] = (char)('0' + left % 10);
    while (left /= 10);
    if (number < 0)
        put(w, "-", 1);
    put(w, digits + at, sizeof digits - at);
}

static void put_word(struct writer *w, int32_t word)
{
    char bytes[4];
    for (int i = 0; i < 4; i++)
        bytes[w->big ? 3 - i : i] = (char)((uint32_t)word >> (8 * i) & 255);
    put_hex(w, bytes, 4);
}

/* Whether a sheet cannot hold so many bytes more in hexadecimal; then they are not read. */
static int too_many(struct writer *w, uint64_t bytes)
{
    if (w->length <= SHEET_LIMIT && bytes <= (SHEET_LIMIT - w->length) / 2)
        return 0;
    w->length = SHEET_LIMIT + 1;
    return 1;
}

/* The block as far as its own count and lengths say, up to a negative length. */
static void put_metadata(struct writer *w, const char *block)
{
    if (!block) {
        put(w, "~", 1);
        return;
    }
    int32_t count = native_word(block);
    uint64_t texts = count > 0 ? 2 * (uint64_t)count : 0;
    if (too_many(w, 4 + 4 * texts))
        return;
    put_word(w, count);
    for (block += 4; texts > 0; texts--) {
        int32_t length = native_word(block);
        if (too_many(w, 4 + (length > 0 ? (uint64_t)length : 0)))
            return;
        put_word(w, length);
        if (length < 0)
            return;
        put_hex(w, block + 4, (size_t)length);
        block += 4 + (size_t)length;
    }
}

static void put_schema(struct writer *w, const struct ArrowSchema *s, int levels);

static void put_children(struct writer *w, const struct ArrowSchema *s, int levels)
{
    for (int64_t i = 0; i < s->n_children && !over_limit(w); i++)
        put_schema(w, s->children[i], levels);
    if (s->dictionary && !over_limit(w))
        put_schema(w, s->dictionary, levels);
}

static void put_schema(struct writer *w, const struct ArrowSchema *s, int levels)
{
    int broken = levels != 0 && (!s || !s->release || s->n_children < 0 || (s->n_children > 0 && !s->children));
    if (levels == 0 || broken) {
        /* a line that is not written is counted as the shortest, so that the walk ends however many of them there are */
        w->length += SHORTEST_LINE;
        w->too_deep |= !broken;
        w->broken |= broken;
        return;
    }
    if (s->n_children > SHEET_LIMIT / SHORTEST_LINE) {
        /* no array is read whose lines a sheet cannot hold */
        w->length = SHEET_LIMIT + 1;
        return;
    }
    put_text(w, s->format);
    put(w, " ", 1);
    put_text(w, s->name);
    put(w, " ", 1);
    put_number(w, s->flags);
    put(w, " ", 1);
    put_metadata(w, s->metadata);
    put(w, " ", 1);
    put_number(w, s->n_children);
    put(w, s->dictionary ? " 1\n" : " 0\n", 3);
    put_children(w, s, levels - 1);
}

struct juzontefa_walked juzontefa_schema_to_sheet(const struct ArrowSchema *schema, uint8_t *out, size_t out_len)
{
    return juzontefa_schema_to_sheet_with_order(schema, JUZONTEFA_LITTLE_ENDIAN, out, out_len);
}

struct juzontefa_walked juzontefa_schema_to_sheet_with_order(const struct ArrowSchema *schema, uint64_t big, uint8_t *out, size_t out_len)
{
    struct writer w = { .out = out, .room = out_len, .big = big != 0 };
    put(&w, heading, HEADING_LENGTH);
    put_schema(&w, schema, LEVELS);
    struct juzontefa_walked walked = { 0, 0, 0 };
    if (over_limit(&w))
        walked.number = JUZONTEFA_NOT_SHEET;
    else if (w.broken)
        walked.number = JUZONTEFA_BAD_LINES;
    else if (w.too_deep)
        walked.number = JUZONTEFA_TOO_DEEP;
    else if (w.length > out_len)
        walked.number = JUZONTEFA_NO_ROOM;
    else
        walked.length = w.length;
    if (walked.number == 0 || walked.number == JUZONTEFA_NO_ROOM)
        walked.needed = w.length;
    if (walked.number != 0 && out_len != 0)
        memset(out, 0, out_len);
    return walked;
}

/* ── a line of a sheet */

struct text {
    const uint8_t *at; /* its digits */
    size_t bytes;
    int is_null;
};

struct line {
    struct text format, name, metadata;
    int64_t flags;
    uint64_t children;
    int dictionary;
};

/* What is left of a sheet. */
struct reader {
    const uint8_t *at, *end;
    int big; /* its blocks are big-endian */
};

static int digit_of(uint8_t byte)
{
    if (byte >= '0' && byte <= '9')
        return byte - '0';
    if (byte >= 'a' && byte <= 'f')
        return byte - 'a' + 10;
    return -1;
}

static uint8_t byte_of(const struct text *t, size_t i)
{
    return (uint8_t)(digit_of(t->at[2 * i]) << 4 | digit_of(t->at[2 * i + 1]));
}

static int take(struct reader *r, uint8_t byte)
{
    if (r->at == r->end || *r->at != byte)
        return 0;
    r->at++;
    return 1;
}

/* A text and the space after it. `zeros` says whether byte 00 may stand in it. */
static int take_text(struct reader *r, struct text *t, int zeros)
{
    *t = (struct text){ r->at, 0, 0 };
    if (take(r, '~')) {
        t->is_null = 1;
        return take(r, ' ');
    }
    if (take(r, '-'))
        return take(r, ' ');
    while (r->end - r->at >= 2 && digit_of(r->at[0]) >= 0 && digit_of(r->at[1]) >= 0) {
        if (!zeros && r->at[0] == '0' && r->at[1] == '0')
            return 0;
        r->at += 2;
        t->bytes++;
    }
    return t->bytes != 0 && take(r, ' ');
}

/* Digits without spare zeros, at most `greatest`. */
static int take_number(struct reader *r, uint64_t greatest, uint64_t *number)
{
    const uint8_t *first = r->at;
    for (*number = 0; r->at != r->end && *r->at >= '0' && *r->at <= '9'; r->at++) {
        uint64_t digit = (uint64_t)(*r->at - '0');
        if (digit > greatest || *number > (greatest - digit) / 10 || (r->at != first && *first == '0'))
            return 0;
        *number = 10 * *number + digit;
    }
    return r->at != first;
}

static int take_flags(struct reader *r, int64_t *flags)
{
    uint64_t number;
    int negative = take(r, '-');
    if (!take_number(r, (uint64_t)INT64_MAX + (negative ? 1 : 0), &number) || (negative && number == 0))
        return 0;
    *flags = !negative ? (int64_t)number : -(int64_t)(number - 1) - 1;
    return take(r, ' ');
}

static int take_line(struct reader *r, struct line *l)
{
    uint64_t dictionary;
    if (!take_text(r, &l->format, 0) || !take_text(r, &l->name, 0) || !take_flags(r, &l->flags) || !take_text(r, &l->metadata, 1))
        return 0;
    if (!take_number(r, INT64_MAX, &l->children) || !take(r, ' ') || !take_number(r, 1, &dictionary) || !take(r, '\n'))
        return 0;
    l->dictionary = (int)dictionary;
    return 1;
}

/* ── a sheet's form, without recursion */

/* How many lines each level still waits for, down to the level of the next line. */
struct levels {
    uint64_t waits[LEVELS + 1];
    int depth;
    int too_deep;
};

/* Takes a line off its level and goes to that of the next line. */
static void next_level(struct levels *ls, uint64_t below)
{
    if (ls->too_deep)
        return;
    ls->waits[ls->depth]--;
    if (below != 0 && ls->depth == LEVELS)
        ls->too_deep = 1;
    else if (below != 0)
        ls->waits[++ls->depth] = below;
    else
        while (ls->depth > 1 && ls->waits[ls->depth] == 0)
            ls->depth--;
}

/* 0, or 2 or 3, of the lines after the heading. */
static uint64_t form(struct reader r)
{
    struct levels ls = { .waits = { 0, 1 }, .depth = 1 };
    uint64_t open = 1; /* lines that must still come */
    for (struct line l; open != 0; open--) {
        if (!take_line(&r, &l) || l.children > SHEET_LIMIT)
            return JUZONTEFA_BAD_LINES;
        open += l.children + (uint64_t)l.dictionary;
        next_level(&ls, l.children + (uint64_t)l.dictionary);
    }
    if (r.at != r.end)
        return JUZONTEFA_BAD_LINES;
    return ls.too_deep ? JUZONTEFA_TOO_DEEP : 0;
}

/* ── a metadata block of a sheet */

static int32_t word_of(const struct text *t, size_t at, int big)
{
    uint32_t word = 0;
    for (size_t i = 0; i < 4; i++)
        word = word << 8 | byte_of(t, big ? at + i : at + 3 - i);
    return word <= INT32_MAX ? (int32_t)word : -(int32_t)(UINT32_MAX - word) - 1;
}

/* Walks a block: how many bytes it has up to its last pair, or 0 if it is cut short or a length is negative. With `to`, the block is written there
 * in this machine's byte order. */
static size_t walk_block(const struct text *t, int big, char *to)
{
    if (t->bytes < 4)
        return 0;
    int32_t count = word_of(t, 0, big);
    size_t at = 4;
    if (to)
        memcpy(to, &count, 4);
    for (int64_t texts = 2 * (int64_t)count; texts > 0; texts--) {
        int32_t length = t->bytes - at < 4 ? -1 : word_of(t, at, big);
        if (length < 0 || (size_t)length > t->bytes - at - 4)
            return 0;
        if (to) {
            memcpy(to + at, &length, 4);
            for (size_t i = at + 4; i < at + 4 + (size_t)length; i++)
                to[i] = (char)byte_of(t, i);
        }
        at += 4 + (size_t)length;
    }
    return at;
}

/* 4 and 11, line by line. */
static uint64_t contents(struct reader r)
{
    for (struct line l; r.at != r.end;) {
        take_line(&r, &l);
        if (l.format.is_null)
            return JUZONTEFA_NULL_FORMAT;
        if (!l.metadata.is_null && walk_block(&l.metadata, r.big, NULL) == 0)
            return JUZONTEFA_BAD_METADATA;
    }
    return 0;
}

/* ── sheet to ArrowSchema */

/* Releases a struct that was made here: what was not moved out of it, then its own memory. */
static void release(struct ArrowSchema *s)
{
    for (int64_t i = 0; i < s->n_children; i++)
        if (s->children[i]->release)
            s->children[i]->release(s->children[i]);
    if (s->dictionary && s->dictionary->release)
        s->dictionary->release(s->dictionary);
    free(s->private_data);
    s->release = NULL;
}

static char *copy_text(const struct text *t, char *to)
{
    for (size_t i = 0; i < t->bytes; i++)
        *to++ = (char)byte_of(t, i);
    *to++ = 0;
    return to;
}

/* One piece of memory for a struct's own parts: the structs below it, pointers to them, its metadata, its texts. So a child that is moved out, which has a piece
 * of its own, does not need its parent's. The structs below are released ones until they are made. */
static int make_line(const struct line *l, int big, struct ArrowSchema *s)
{
    size_t below = (size_t)l->children + (size_t)l->dictionary;
    size_t block = l->metadata.is_null ? 0 : walk_block(&l->metadata, big, NULL);
    size_t size = below * sizeof(struct ArrowSchema) + l->children * sizeof(struct ArrowSchema *) + l->format.bytes + l->name.bytes + 2 + block;
    struct ArrowSchema *structs = malloc(size);
    if (!structs)
        return 0;
    struct ArrowSchema **pointers = (struct ArrowSchema **)(structs + below);
    char *texts = (char *)(pointers + l->children);
    memset(structs, 0, below * sizeof *structs);
    for (size_t i = 0; i < l->children; i++)
        pointers[i] = structs + i;
    *s = (struct ArrowSchema){ .flags = l->flags, .n_children = (int64_t)l->children, .release = release, .private_data = structs };
    if (block != 0) {
        s->metadata = texts;
        texts += walk_block(&l->metadata, big, texts);
    }
    s->format = texts;
    texts = copy_text(&l->format, texts);
    if (!l->name.is_null) {
        s->name = texts;
        copy_text(&l->name, texts);
    }
    if (l->children != 0)
        s->children = pointers;
    if (l->dictionary)
        s->dictionary = structs + l->children;
    return 1;
}

/* The subtree whose first line comes next; 0 if memory could not be had, and then `*s` holds what was made before, to be released. A sheet whose
 * form was tested has at most 32 levels. */
static int make(struct reader *r, struct ArrowSchema *s)
{
    struct line l;
    take_line(r, &l);
    if (!make_line(&l, r->big, s))
        return 0;
    for (int64_t i = 0; i < s->n_children; i++)
        if (!make(r, s->children[i]))
            return 0;
    return !s->dictionary || make(r, s->dictionary);
}

uint64_t juzontefa_sheet_to_schema(const uint8_t *sheet, size_t sheet_len, struct ArrowSchema *schema)
{
    return juzontefa_sheet_to_schema_with_order(sheet, sheet_len, JUZONTEFA_LITTLE_ENDIAN, schema);
}

uint64_t juzontefa_sheet_to_schema_with_order(const uint8_t *sheet, size_t sheet_len, uint64_t big, struct ArrowSchema *schema)
{
    *schema = (struct ArrowSchema){ 0 };
    if (sheet_len > SHEET_LIMIT || sheet_len < HEADING_LENGTH || memcmp(sheet, heading, HEADING_LENGTH) != 0)
        return JUZONTEFA_NOT_SHEET;
    struct reader r = { sheet + HEADING_LENGTH, sheet + sheet_len, big != 0 };
    uint64_t number = form(r);
    if (number == 0)
        number = contents(r);
    if (number != 0)
        return number;
    if (make(&r, schema))
        return 0;
    if (schema->release)
        schema->release(schema);
    *schema = (struct ArrowSchema){ 0 };
    return JUZONTEFA_NO_MEMORY;
}

uint64_t juzontefa_strict_field_to_schema(const uint8_t *field, size_t field_len, struct ArrowSchema *schema)
{
    *schema = (struct ArrowSchema){ 0 };
    /* one byte at least, and no more than can be made into structs: an answer that is longer gets 16, and is no sheet to hand in */
    size_t room = JUZONTEFA_EXPORT_ROOM(field_len) < SHEET_LIMIT ? JUZONTEFA_EXPORT_ROOM(field_len) + 1 : SHEET_LIMIT;
    uint8_t *sheet = malloc(room);
    if (!sheet)
        return JUZONTEFA_NO_MEMORY;
    struct juzontefa_answer a = juzontefa_strict_export(field, field_len, JUZONTEFA_LITTLE_ENDIAN, sheet, room);
    uint64_t number = a.number == JUZONTEFA_NO_ROOM ? JUZONTEFA_NOT_SHEET : a.number;
    if (number == 0)
        number = juzontefa_sheet_to_schema(sheet, a.length, schema);
    free(sheet);
    return number;
}
