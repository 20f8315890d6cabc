/* The export of a field sheet, sheet to sheet, by hand in C: a measure of what the machine can do, not part of the product.
 *
 * One pass over the input: the form of a line is tested and the line is written before the next one is read. Only the pairs of an extension, and of a
 * union without ids, are gone through twice, since what is written before them comes after them in the sheet. Refusals of 12 to 14 are kept (the first
 * one in the order of visiting counts) while the form of the rest is tested. A line with a short fixed format and without metadata has its length
 * known before it is written, so that there is one test of room for it; others have one for each part. No heap, and less than 2 KB of stack. */
#include "by_hand.h"

/* ---- kinds */
enum { TIMESTAMP = 15, TIME_32 = 18, INTERVAL = 21, FIXED_SIZE_BINARY = 23, FIXED_SIZE_LIST = 28, MAP = 31, DICTIONARY = 32, EXTENSION = 37,
    UNION = 41, KINDS = 42 };

#define ANY UINT64_MAX
static const u64 MOST_P[KINDS] = { [15] = 3, [18] = 3, [19] = 3, [20] = 3, [21] = 3, [23] = ANY, [28] = ANY, [31] = 1, [32] = 9, [33] = ANY,
    [34] = ANY, [35] = ANY, [36] = ANY, [41] = 1 };
static const u64 MOST_Q[KINDS] = { [32] = 1, [33] = ANY, [34] = ANY, [35] = ANY, [36] = ANY };
enum { NO_CHILDREN, ONE_CHILD, FREE };
static const u8 BELOW[KINDS] = { [27] = ONE_CHILD, [28] = ONE_CHILD, [29] = ONE_CHILD, [30] = FREE, [31] = ONE_CHILD, [32] = ONE_CHILD,
    [37] = ONE_CHILD, [41] = FREE };

/* A fixed name as a word: its digits, the first lowest, and a space; the top byte is their number with the space. */
#define DIGIT(x) ((u64)((x) < 10 ? '0' + (x) : 'a' + (x) - 10))
#define PAIR(c) (DIGIT((c) >> 4) | DIGIT((c) & 15) << 8)
#define ONE(a) (PAIR(a) | (u64)' ' << 16 | (u64)3 << 56)
#define TWO(a, b) (PAIR(a) | PAIR(b) << 16 | (u64)' ' << 32 | (u64)5 << 56)
#define THREE(a, b, c) (PAIR(a) | PAIR(b) << 16 | PAIR(c) << 32 | (u64)' ' << 48 | (u64)7 << 56)
#define LENGTH(name) ((name) >> 56)

/* Of the kinds that a line of the leaves' form may have: nothing below it, p and q 0, no texts. */
static const u64 LEAVES[50] = { ONE('n'), ONE('b'), ONE('c'), ONE('s'), ONE('i'), ONE('l'), 0, ONE('C'), ONE('S'), ONE('I'), ONE('L'), 0, ONE('e'),
    ONE('f'), ONE('g'), [16] = THREE('t', 'd', 'D'), [17] = THREE('t', 'd', 'm'), [18] = THREE('t', 't', 's'), [20] = THREE('t', 'D', 's'),
    [21] = THREE('t', 'i', 'M'), [22] = ONE('z'), [24] = ONE('Z'), [25] = ONE('u'), [26] = ONE('U'), [30] = TWO('+', 's'), [38] = TWO('v', 'z'),
    [39] = TWO('v', 'u') };
/* Of the kinds from Time32 to Interval, by unit. */
static const u64 UNITS[4][4] = { { THREE('t', 't', 's'), THREE('t', 't', 'm') }, { [2] = THREE('t', 't', 'u'), [3] = THREE('t', 't', 'n') },
    { THREE('t', 'D', 's'), THREE('t', 'D', 'm'), THREE('t', 'D', 'u'), THREE('t', 'D', 'n') },
    { THREE('t', 'i', 'M'), THREE('t', 'i', 'D'), THREE('t', 'i', 'n') } };

/* The two digits of each byte. */
#define FOUR(b) PAIR(b), PAIR((b) + 1), PAIR((b) + 2), PAIR((b) + 3)
#define ROW(b) FOUR(b), FOUR((b) + 4), FOUR((b) + 8), FOUR((b) + 12)
static const u16 DIGITS[256] = { ROW(0x00), ROW(0x10), ROW(0x20), ROW(0x30), ROW(0x40), ROW(0x50), ROW(0x60), ROW(0x70), ROW(0x80), ROW(0x90),
    ROW(0xa0), ROW(0xb0), ROW(0xc0), ROW(0xd0), ROW(0xe0), ROW(0xf0) };

/* A count or a length in a block: those of a sheet are below 65,536. */
static inline void put_word(u8 *p, size_t v)
{
    store8(p, 0x3030303000000000u | (u64)DIGITS[v >> 8] << 16 | DIGITS[v & 255]);
}

/* ---- lines */
struct line {
    u64 p, q, children;
    size_t text, text_end, more, more_end; /* 0 for a text that is `~` */
    size_t name, name_end;
    size_t pairs;      /* 0 for `~` and `-` */
    size_t count, end; /* where the count of children is; after the line, or 0 as long as that is not read */
    unsigned zone_what, name_what; /* a byte 00 in them is 14 */
    u8 kind, bare, nullable, has_format; /* a union's ids are written where they are read */
};

/* Whose name, nullable and pairs a schema line has: those of the field line, of an extension around it, or those of values. */
struct own { const u8 *name; size_t length, pairs, text, text_end, more, more_end; u8 nullable, zero; };

static const u8 EMPTY[8] = { '-' };

/* An id's digits as a format has them. */
static inline u8 *put_digits(u8 *q, const u8 *p, size_t n)
{
    for (size_t i = 0; i < n; i++, q += 2) {
        u16 v = (u16)('3' | p[i] << 8);
        memcpy(q, &v, 2);
    }
    return q;
}

#ifdef __SSE2__
/* The ids from i on that are whole in blocks of sixteen digits and commas, as long as they are fit to be written and there is room for what follows
 * in the block: the first id that is not written. */
static inline size_t put_id_blocks(const u8 *s, size_t i, size_t n, struct out *o)
{
    const __m128i zero = _mm_set1_epi8('0'), nine = _mm_set1_epi8(9), comma = _mm_set1_epi8(',');
    const __m128i three = _mm_set1_epi8('3'), letter = _mm_set1_epi8('c' - ',');
    while (n - i >= 16 && !o->full && o->cap - o->w >= 32) {
        __m128i v = _mm_loadu_si128((const __m128i *)(s + i)), d = _mm_sub_epi8(v, zero), c = _mm_cmpeq_epi8(v, comma);
        unsigned digits = (unsigned)_mm_movemask_epi8(_mm_cmpeq_epi8(_mm_min_epu8(d, nine), d));
        unsigned commas = (unsigned)_mm_movemask_epi8(c), zeros = (unsigned)_mm_movemask_epi8(_mm_cmpeq_epi8(v, zero));
        unsigned firsts = commas << 1 | 1, tens = digits & digits >> 1;
        if ((digits | commas) != 0xffff || !commas) break;
        tens &= tens >> 2;
        tens &= tens >> 4;
        tens &= tens >> 2; /* where ten digits begin, which are looked at one by one */
        if (tens | (commas & firsts) | (zeros & firsts & digits >> 1)) break;
        u8 *q = o->o + o->w;
        __m128i high = _mm_add_epi8(three, c), low = _mm_add_epi8(v, _mm_and_si128(c, letter)); /* a comma's digits are 2 and c */
        _mm_storeu_si128((__m128i *)q, _mm_unpacklo_epi8(high, low));
        _mm_storeu_si128((__m128i *)(q + 16), _mm_unpackhi_epi8(high, low));
        unsigned whole = 32 - (unsigned)__builtin_clz(commas);
        o->w += 2 * whole;
        i += whole;
    }
    return i;
}
#endif

/* The ids from i on, tested and written with what stands before them in the format: the space after them, or 0. */
static COLD size_t put_ids(const u8 *s, size_t i, size_t n, u64 mode, struct out *o)
{
    put(o, mode ? "2b75733a" : "2b75643a", 8);
    for (;;) {
#ifdef __SSE2__
        i = put_id_blocks(s, i, n, o);
#endif
        size_t minus = i < n && s[i] == '-', at = i += minus;
        u64 m = 0;
        for (; i < n && (unsigned)s[i] - '0' < 10; i++) {
            m = m * 10 + s[i] - '0';
            if (m > 0x80000000u) return 0;
        }
        if (i == at || i >= n || m > 0x7fffffffu + minus || (s[at] == '0' && (minus || i - at > 1))) return 0;
        u8 *q = room(o, 2 * (i - at + minus + 1) - (s[i] == ' '));
        if (LIKELY(q != 0)) {
            if (minus) *q++ = '2', *q++ = 'd';
            q = put_digits(q, s + at, i - at);
            if (s[i] == ' ') *q = ' ';
            else *q++ = '2', *q = 'c';
        }
        if (s[i] == ' ') return i;
        if (s[i] != ',') return 0;
        i++;
    }
}

/* A text's column that is UTF-8: where it begins, or 0 for `~`; its end, or 0 if it breaks its rules. */
static size_t utf8_column(const u8 *s, size_t i, size_t n, size_t *begin, unsigned *what)
{
    size_t e = text_column(s, i, n, what);
    if (!e || (*what & HIGH && !utf8(s + i, e - i))) return 0;
    *begin = s[i] == '~' ? 0 : i;
    return e;
}

/* The columns from p to more, of any form: the space after them, or 0. */
static COLD size_t long_head(const u8 *s, size_t i, size_t n, struct line *l, struct out *o)
{
    unsigned what;
    if (s[i] != ' ' || !(i = number_column(s, i + 1, n, ' ', MOST_P[l->kind], &l->p))) return 0;
    if (!(i = number_column(s, i + 1, n, ' ', MOST_Q[l->kind], &l->q)) || n - i < 3) return 0;
    l->text = ++i;
    if (l->kind != UNION) i = utf8_column(s, i, n, &l->text, &l->zone_what);
    else if (s[i + 1] == ' ' && (s[i] == '~' || s[i] == '-')) l->text = s[i] == '~' ? 0 : i, i++;
    else {
        i = put_ids(s, i, n, l->p, o);
        l->has_format = 1;
    }
    if (!i || (l->text ? l->kind != TIMESTAMP && l->kind != UNION && l->kind != EXTENSION : l->kind == EXTENSION)) return 0;
    l->text_end = i;
    if (l->kind != TIMESTAMP) l->zone_what = 0;
    i = utf8_column(s, i + 1, n, &l->more, &what);
    l->more_end = i;
    return l->more && l->kind != EXTENSION ? 0 : i;
}

/* Whether the key of a digits comes before that of b: digits are ordered as their bytes are. */
static inline int ascends(const u8 *a, size_t m, const u8 *b, size_t k)
{
    size_t n = m < k ? m : k, i = 0;
    for (; n - i >= 8; i += 8) {
        u64 x = load8(a + i), y = load8(b + i);
        if (x != y) return __builtin_bswap64(x) < __builtin_bswap64(y);
    }
    if (n - i >= 4) {
        u32 x = load4(a + i), y = load4(b + i);
        if (x != y) return __builtin_bswap32(x) < __builtin_bswap32(y);
        i += 4;
    }
    if (n - i >= 2) {
        u16 x = load2(a + i), y = load2(b + i);
        if (x != y) return __builtin_bswap16(x) < __builtin_bswap16(y);
    }
    return m < k;
}

static inline void put_pair(struct out *o, const u8 *key, size_t k, const u8 *value, size_t v)
{
    u8 *p = room(o, 16 + k + v);
    if (UNLIKELY(!p)) return;
    put_word(p, k / 2);
    copy_even(p + 8, key, k);
    put_word(p + 8 + k, v / 2);
    copy_even(p + 16 + k, value, v);
}

/* The pairs from i on, tested and written as a block: the space after them, or 0. */
static COLD size_t put_pairs(const u8 *s, size_t i, size_t n, struct out *o)
{
    size_t count = o->w, before = 0, before_digits = 0, pairs = 0;
    if (!room(o, 8)) count = 0;
    for (;; i++) {
        unsigned what, more;
        size_t e = hex_end(s, i, n, &what), f;
        if (e >= n || s[e] != '=') return 0;
        f = hex_end(s, e + 1, n, &more);
        if (f >= n || ((e - i) | (f - e - 1)) % 2) return 0;
        if (UNLIKELY((what | more) & HIGH) && !(utf8(s + i, e - i) && utf8(s + e + 1, f - e - 1))) return 0;
        if (pairs++ && !ascends(s + before, before_digits, s + i, e - i)) return 0;
        put_pair(o, s + i, e - i, s + e + 1, f - e - 1);
        before = i;
        before_digits = e - i;
        i = f;
        if (s[i] != ',') break;
    }
    if (s[i] != ' ') return 0;
    if (!o->full) put_word(o->o + count, pairs);
    return i;
}

static const u8 MORE_KEY[] = "4152524f573a657874656e73696f6e3a6d65746164617461", NAME_KEY[] = "4152524f573a657874656e73696f6e3a6e616d65";

/* The pairs of an extension, which have been tested, and the reserved keys over equal ones. */
static COLD void put_extension(const u8 *s, size_t n, const struct own *x, struct out *o)
{
    const struct { const u8 *key; size_t digits, text, end; } reserved[2] = {
        { MORE_KEY, 48, x->more, x->more_end }, { NAME_KEY, 40, x->text, x->text_end } };
    size_t count = o->w, pairs = 0, i = x->pairs;
    unsigned next = x->more ? 0 : 1, what;
    if (!room(o, 8)) return;
    for (;;) {
        size_t e = i ? hex_end(s, i, n, &what) : 0, f = i ? hex_end(s, e + 1, n, &what) : 0;
        int equal = 0;
        while (next < 2 && (!i || !ascends(s + i, e - i, reserved[next].key, reserved[next].digits))) {
            size_t text = reserved[next].text, digits = s[text] == '-' ? 0 : reserved[next].end - text;
            put_pair(o, reserved[next].key, reserved[next].digits, s + text, digits);
            equal |= i && e - i == reserved[next].digits && memcmp(s + i, reserved[next].key, e - i) == 0;
            next++;
            pairs++;
        }
        if (!i) break;
        if (!equal) put_pair(o, s + i, e - i, s + e + 1, f - e - 1), pairs++;
        i = s[f] == ',' ? f + 1 : 0;
    }
    if (!o->full) put_word(o->o + count, pairs);
}

/* A number's digits as a format has them. */
static u8 *put_size(u8 *q, u64 v)
{
    u8 b[20];
    unsigned i = 20;
    do b[--i] = (u8)('0' + v % 10); while (v /= 10);
    return put_digits(q, b + i, 20 - i);
}

static u8 *put_text(u8 *q, const char *t)
{
    size_t n = strlen(t);
    memcpy(q, t, n);
    return q + n;
}

/* The format of a line that has none among the short fixed names, and a space: the number of its refusal. */
static COLD int put_format(const u8 *s, const struct line *l, struct out *o)
{
    u8 b[128], *q = b;
    unsigned kind = l->kind == DICTIONARY ? (unsigned)l->p + 2 : l->kind;
    switch (kind) {
    case 6: q = put_text(q, "5f706c69313238"); break;
    case 11: q = put_text(q, "5f706c75313238"); break;
    case TIMESTAMP:
        q = put_text(q, "7473");
        q = put_text(q, l->p == 0 ? "73" : l->p == 1 ? "6d" : l->p == 2 ? "75" : "6e");
        q = put_text(q, "3a");
        put(o, b, (size_t)(q - b));
        if (l->text && s[l->text] != '-') put(o, s + l->text, l->text_end - l->text);
        q = b;
        break;
    case FIXED_SIZE_BINARY: q = put_size(put_text(q, "773a"), l->p); break;
    case FIXED_SIZE_LIST: q = put_size(put_text(q, "2b773a"), l->p); break;
    case 33: case 34: case 35: case 36:
        q = put_size(put_text(q, "643a"), l->p);
        q = put_size(put_text(q, "2c"), l->q);
        q = put_text(q, kind == 33 ? "" : kind == 34 ? "2c3332" : kind == 35 ? "2c3634" : "2c323536");
        break;
    case UNION:
        if (l->text || !l->children) return 13;
        put(o, l->p ? "2b75733a" : "2b75643a", 8);
        for (u64 id = 0; id < l->children && !o->full; id++) {
            q = id ? put_text(b, "2c") : b;
            q = put_size(q, id);
            put(o, b, (size_t)(q - b));
        }
        q = b;
        break;
    default: return 12;
    }
    *q++ = ' ';
    put(o, b, (size_t)(q - b));
    return 0;
}

/* The word of a format that is among the short fixed names, or 0. */
static inline u64 short_format(const struct line *l)
{
    unsigned kind = l->kind;
    if (UNLIKELY(kind >= 27)) {
        if (kind == DICTIONARY) return LEAVES[l->p + 2];
        if (kind == 27) return TWO('+', 'l');
        if (kind == 29) return TWO('+', 'L');
        if (kind == MAP) return TWO('+', 'm');
    } else if (UNLIKELY(kind >= TIME_32 && kind <= INTERVAL)) return UNITS[kind - TIME_32][l->p];
    return LEAVES[kind];
}

/* The columns from pairs on, of any form; pairs are written where there is room. 0 if they are bad. */
static COLD int long_end(const u8 *s, size_t i, size_t n, struct line *l, struct out *o)
{
    if (n - i < 4) return 0;
    if (s[i + 1] == ' ' && (s[i] == '~' || s[i] == '-')) i++;
    else {
        l->pairs = i;
        if (!(i = put_pairs(s, i, n, o))) return 0;
    }
    l->count = i + 1;
    i = number_column(s, i + 1, n, '\n', UINT64_MAX, &l->children);
    l->end = i + 1;
    return i != 0;
}

/* A line of any form, read up to nullable, with pairs at i; what is left is read and, into o if there is one, all is written. 0 if it is bad. */
static COLD int put_line(const u8 *s, size_t i, size_t n, struct line *l, const struct own *own, int inside, struct out *o, int *refused)
{
    struct out none = { 0, 0, 0, 1 };
    u64 format = short_format(l);
    /* a union's format may need the count of its children, which comes last */
    if (!o || (l->kind == UNION && !l->has_format)) {
        if (!l->end && !long_end(s, i, n, l, &none)) return 0;
        if (!o) return 1;
    }
    if (format) put(o, &format, LENGTH(format));
    else if (!l->has_format && (*refused = put_format(s, l, o))) return l->end || long_end(s, i, n, l, &none);
    put(o, own->name, own->length);
    u8 flags[3] = { ' ', (u8)('0' + own->nullable + (l->kind == MAP ? 4 * l->p : l->kind == DICTIONARY && !inside ? l->q : 0)), ' ' };
    put(o, flags, 3);
    if (inside) {
        if (!l->end && !long_end(s, i, n, l, &none)) return 0;
        put_extension(s, n, own, o);
    } else if (l->pairs) put_pairs(s, l->pairs, n, o);
    else if (l->end) put(o, "~", 1);
    else if (!long_end(s, i, n, l, o)) return 0;
    else if (!l->pairs) put(o, "~", 1);
    if (l->kind == DICTIONARY) put(o, inside ? " 0 0\n" : " 0 1\n", 5);
    else {
        put(o, " ", 1);
        put(o, s + l->count, l->end - 1 - l->count);
        put(o, " 0\n", 3);
    }
    return 1;
}

/* ---- a run of leaves, as a struct has them: `K[K] 0 0 ~ ~ NAME.. N ~ 0`, a short fixed format, an ASCII name, no metadata, nothing below. At most
 * `most` lines from at on, as long as they are of that form and fit. A name's last block is copied whole: the next line writes over what is too
 * much, so the caller keeps one back. Lines of any other form are left to the caller. */
static inline size_t leaves(const u8 *s, size_t *from, size_t n, struct out *o, size_t most)
{
    size_t at = *from, w = o->w, done = 0;
#ifdef __SSE2__
    const __m128i zero = _mm_set1_epi8('0'), small = _mm_set1_epi8('a'), nine = _mm_set1_epi8(9), five = _mm_set1_epi8(5);
    u8 *out = o->o;
    size_t cap = o->cap;
    while (done < most) {
        if (n - at < 32 || cap - w < 8) break;
        unsigned kind = (unsigned)s[at] - '0', second = (unsigned)s[at + 1] - '0';
        size_t i = at + 1;
        if (second <= 9) {
            kind = kind * 10 + second;
            i++;
            if (s[at] == '0' || kind >= 50) break;
        } else if (kind > 9) break;
        u64 format = LEAVES[kind];
        if (!format || load8(s + i) != 0x7e207e2030203020u || s[i + 8] != ' ') break; /* ` 0 0 ~ ~ ` */
        i += 9;
        size_t name = i, to = w + LENGTH(format);
        store8(out + w, format);
        for (;;) {
            if (n - i < 16 || cap - to < 16 || cap < to) goto end;
            __m128i v = _mm_loadu_si128((const __m128i *)(s + i));
            __m128i d = _mm_sub_epi8(v, zero), c = _mm_sub_epi8(v, small);
            __m128i ok = _mm_or_si128(_mm_cmpeq_epi8(_mm_min_epu8(d, nine), d), _mm_cmpeq_epi8(_mm_min_epu8(c, five), c));
            unsigned stop = (unsigned)_mm_movemask_epi8(ok) ^ 0xffff;
            unsigned z = (unsigned)_mm_movemask_epi8(_mm_cmpeq_epi8(v, zero));
            unsigned bad = (unsigned)_mm_movemask_epi8(_mm_or_si128(_mm_slli_epi16(v, 4), _mm_slli_epi16(v, 1))) | (z & z >> 1);
            _mm_storeu_si128((__m128i *)(out + to), v);
            if (UNLIKELY(bad & 0x5555 & (stop - 1) & ~stop)) goto end;
            if (stop) {
                unsigned k = (unsigned)__builtin_ctz(stop);
                i += k;
                to += k;
                break;
            }
            i += 16;
            to += 16;
        }
        if (((i - name) & 1) || i == name || n - i < 7 || cap - to < 9 || cap < to) break;
        u64 f = (load8(s + i - 1) >> 8) - 0x0a30207e203020u; /* ` 0 ~ 0\n` */
        if (f & ~(u64)0x100) break;
        store8(out + to, 0x302030207e203020u + (f << 1)); /* ` F ~ 0 0` */
        out[to + 8] = '\n';
        w = to + 9;
        at = i + 7;
        done++;
    }
end:
#else
    (void)s, (void)n, (void)most;
#endif
    *from = at;
    o->w = w;
    return done;
}

struct answer by_hand_export(const u8 *s, size_t n, u8 *out, size_t cap)
{
    /* of the levels that are open: how many subtrees are to come on each; which of them have a line above them with a byte 00 in its name */
    u32 left[32], zeros = 0;
    struct out o = { out, 0, cap, 0 }, none = { out, 0, 0, 1 };
    struct own own = { 0 };
    unsigned depth = 0, above = 0; /* above: a dictionary or an extension, whose bare line comes next */
    unsigned skip = 0; /* the level that the values of a dictionary in an extension begin, which are not visited */
    int refused = 0, deep = 0;
    u64 due = 1;
    size_t at = 48;
    if (n > LONGEST || n < 48 || memcmp(s, FIELD_HEADING, 48)) return refuse(out, cap, 1);
    put(&o, SCHEMA_HEADING, 47);
    left[0] = 1;
    while (due) {
        if (left[depth] > 2 && !(above | skip | (unsigned)(refused | deep | o.full))) {
            size_t k = leaves(s, &at, n, &o, left[depth] - 1);
            left[depth] -= (u32)k;
            due -= k;
        }
        struct line l;
        struct out *to = UNLIKELY(skip | (unsigned)(refused | deep)) ? &none : &o;
        if (UNLIKELY(n - at < 18)) return refuse(out, cap, 2);
        unsigned kind = (unsigned)s[at] - '0', second = (unsigned)s[at + 1] - '0';
        size_t i = at + 1;
        if (second <= 9) {
            kind = kind ? kind * 10 + second : KINDS;
            i++;
        } else if (kind > 9) kind = KINDS;
        if (UNLIKELY(kind >= KINDS)) return refuse(out, cap, 2);
        l.kind = (u8)kind;
        l.p = l.q = l.text = l.more = l.pairs = l.has_format = l.zone_what = 0;
        if (LIKELY(load8(s + i) == 0x7e207e2030203020u && s[i + 8] == ' ' && kind != EXTENSION)) i += 8;
        else if (!(i = long_head(s, i, n, &l, to))) return refuse(out, cap, 2);
        l.name = i + 1;
        i = text_column(s, l.name, n, &l.name_what);
        if (UNLIKELY(!i || n - i < 7 || (l.name_what & HIGH && !utf8(s + l.name, i - l.name)))) return refuse(out, cap, 2);
        l.name_end = i;
        l.bare = s[l.name] == '~';
        if (UNLIKELY(l.bare != (above != 0))) return refuse(out, cap, 2);
        /* ` N ~ C\n`, as most lines end */
        u64 v = load8(s + i - 1) >> 8, c = (v >> 40 & 0xff) - '0';
        l.nullable = (u8)((v >> 8 & 0xff) - '0');
        if (UNLIKELY(l.bare ? (v & 0xffffffffff) != 0x207e207e20 : l.nullable > 1 || (v & 0xff00ff) != 0x200020)) return refuse(out, cap, 2);
        if (LIKELY((v >> 24 & 0xff00ffff) == 0x0a00207e && c < 10)) {
            l.children = c;
            l.count = i + 5;
            l.end = i + 7;
        } else l.end = 0;
        int inside = above == EXTENSION;
        if (LIKELY(!above)) {
            own.name = s + l.name;
            own.length = l.name_end - l.name;
            own.nullable = (u8)(2 * l.nullable);
            own.zero = l.name_what & ZERO;
            own.pairs = 0;
        } else if (!inside) own = (struct own){ .name = EMPTY, .length = 1, .nullable = 2 };
        u64 format;
        if (LIKELY(l.end && !inside && kind != EXTENSION && to == &o && (format = short_format(&l)) != 0)) {
            size_t length = LENGTH(format) + own.length + 9;
            if (LIKELY(!o.full && o.cap - o.w >= length)) {
                u8 *q = o.o + o.w;
                u64 is_dictionary = kind == DICTIONARY, flags = own.nullable + (is_dictionary ? l.q : 0) + (kind == MAP ? 4 * l.p : 0);
                u64 children = is_dictionary ? 0 : c;
                store8(q, format);
                q += LENGTH(format);
                copy8(q, own.name, own.length);
                q += own.length;
                store8(q, 0x302030207e203020u + (flags << 8) + (children << 40) + (is_dictionary << 56)); /* ` F ~ C D` */
                q[8] = '\n';
                o.w += length;
            } else o.full = 1;
        } else if (!put_line(s, i + 3, n, &l, &own, inside, to == &o && kind != EXTENSION ? &o : 0, &refused)) return refuse(out, cap, 2);
        if (UNLIKELY(l.children > LONGEST || (BELOW[kind] != FREE && l.children != BELOW[kind]))) return refuse(out, cap, 2);
        due += l.children - 1;
        if (UNLIKELY(due > n - l.end)) return refuse(out, cap, 2);
        at = l.end;
        unsigned was_above = above;
        above = kind == DICTIONARY || kind == EXTENSION ? kind : 0;
        if (UNLIKELY(deep)) continue;
        if (kind == EXTENSION) { /* its inner line is on its level */
            if (was_above != EXTENSION) {
                own.pairs = l.pairs;
                own.text = l.text, own.text_end = l.text_end;
                own.more = l.more, own.more_end = l.more_end;
            } else if (depth == 31) deep = 1;
            else {
                left[depth]--;
                left[++depth] = 1;
            }
            continue;
        }
        left[depth]--;
        int zero = own.zero || l.zone_what & ZERO;
        if (l.children) {
            if (UNLIKELY(depth == 31)) { deep = 1; continue; }
            left[++depth] = (u32)l.children;
            if (skip | (unsigned)refused) continue;
            if (UNLIKELY(kind == DICTIONARY && inside)) {
                skip = depth;
                if (zero) refused = 14;
            } else if (UNLIKELY(zero)) zeros |= (u32)1 << depth;
        } else {
            if (UNLIKELY(zero && !(skip | (unsigned)refused))) refused = 14;
            while (depth && !left[depth]) {
                if (UNLIKELY(zeros >> depth & 1)) {
                    zeros &= ~((u32)1 << depth);
                    if (!refused) refused = 14;
                }
                if (skip == depth) skip = 0;
                depth--;
            }
        }
    }
    if (at != n) return refuse(out, cap, 2);
    if (deep) return refuse(out, cap, 3);
    if (refused) return refuse(out, cap, (u64)refused);
    if (o.full) return refuse(out, cap, 16);
    struct answer a = { 0, o.w };
    return a;
}
