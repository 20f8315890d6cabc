/* The import of a schema sheet, sheet to sheet, by hand in C: a measure of what the machine can do, not part of the product.
 *
 * One pass over the input. A line's length is known before it is written, so that there is one test of room per line. Refusals of 4 to 11 are kept
 * (the first one in the order of visiting counts) while the form of the rest is tested. No heap; about 50 KB of stack. */
#include "by_hand.h"

/* ---- digits */
/* Eight digits, the bytes in their order, the first one lowest. */
static inline u32 word_of(const u8 *p)
{
    u64 v = load8(p);
    v = (v & 0x0f0f0f0f0f0f0f0fu) + 9 * (v >> 6 & 0x0101010101010101u);
    v = (v << 4 | v >> 8) & 0x00ff00ff00ff00ffu;
    v = (v | v >> 8) & 0x0000ffff0000ffffu;
    return (u32)(v | v >> 16);
}

/* The end of the digits from i on, and nothing of the pairs. */
static inline size_t digits_end(const u8 *s, size_t i, size_t n)
{
#ifdef __SSE2__
    const __m128i zero = _mm_set1_epi8('0'), small = _mm_set1_epi8('a'), nine = _mm_set1_epi8(9), five = _mm_set1_epi8(5);
    while (LIKELY(n - i >= 16)) {
        __m128i v = _mm_loadu_si128((const __m128i *)(s + i));
        __m128i d = _mm_sub_epi8(v, zero), a = _mm_sub_epi8(v, small);
        __m128i ok = _mm_or_si128(_mm_cmpeq_epi8(_mm_min_epu8(d, nine), d), _mm_cmpeq_epi8(_mm_min_epu8(a, five), a));
        unsigned stop = (unsigned)_mm_movemask_epi8(ok) ^ 0xffff;
        if (stop) return i + (size_t)__builtin_ctz(stop);
        i += 16;
    }
#endif
    while (i < n && IS_HEX[s[i]]) i++;
    return i;
}

/* ---- UTF-8 of a text in metadata. A first digit past 7 has bit 3 or 6 set, and no other digit has. */
static inline int text_is_utf8(const u8 *p, size_t digits)
{
    u64 all = 0;
    if (digits >= 8) {
        for (size_t i = 0; i + 8 <= digits; i += 8) all |= load8(p + i);
        all |= load8(p + digits - 8);
    } else if (digits >= 4) all = load4(p) | load4(p + digits - 4);
    else if (digits) all = p[0];
    return LIKELY(!(all & 0x0048004800480048u)) || utf8(p, digits);
}

/* ---- lines */
/* kind + 1 */
static const u8 ONE[256] = { ['n'] = 1, ['b'] = 2, ['c'] = 3, ['C'] = 8, ['s'] = 4, ['S'] = 9, ['i'] = 5, ['I'] = 10, ['l'] = 6,
    ['L'] = 11, ['e'] = 13, ['f'] = 14, ['g'] = 15, ['z'] = 23, ['Z'] = 25, ['u'] = 26, ['U'] = 27 };
#define KIND_NOT_KNOWN 255
/* The nested types and views that a text of four digits names. */
static inline u8 two_bytes(u32 text)
{
    switch (text) {
    case 0x63366232: return 27; /* +l */
    case 0x63346232: return 29; /* +L */
    case 0x33376232: return 30; /* +s */
    case 0x64366232: return 31; /* +m */
    case 0x35373637: return 39; /* vu */
    case 0x61373637: return 38; /* vz */
    }
    return KIND_NOT_KNOWN;
}

struct line {
    size_t name, name_end, meta, meta_end, format_end, end;
    unsigned format_what, name_what;
    int64_t flags;
    u64 children, dictionary;
    u8 kind; /* where the format is one of the short fixed names */
};

/* The columns after the name, of any length: 0 if they are bad. */
static COLD int long_columns(const u8 *s, size_t i, size_t n, struct line *l)
{
    u64 m;
    if (i < n && s[i] == '-') {
        i = number_column(s, i + 1, n, ' ', (u64)1 << 63, &m);
        if (!i || !m) return 0;
        l->flags = (int64_t)(0 - m);
    } else {
        i = number_column(s, i, n, ' ', INT64_MAX, &m);
        if (!i) return 0;
        l->flags = (int64_t)m;
    }
    l->meta = i + 1;
    i = column_end(s, i + 1, n, digits_end(s, i + 1, n));
    if (!i) return 0;
    l->meta_end = i;
    i = number_column(s, i + 1, n, ' ', INT64_MAX, &l->children);
    if (!i) return 0;
    i = number_column(s, i + 1, n, '\n', 1, &l->dictionary);
    l->end = i + 1;
    return i != 0;
}

static inline int read_line(const u8 *s, size_t at, size_t n, struct line *l)
{
    size_t e;
    l->kind = KIND_NOT_KNOWN;
    if (LIKELY(n - at >= 3 && s[at + 2] == ' ' && IS_HEX[s[at]] && IS_HEX[s[at + 1]])) {
        unsigned b = byte_of(s + at);
        e = at + 2;
        l->kind = ONE[b] - 1; /* 0 becomes 255 */
        l->format_what = (b == 0 ? ZERO : 0) | (b > 127 ? HIGH : 0);
    } else if (n - at >= 5 && s[at + 4] == ' ' && (l->kind = two_bytes(load4(s + at))) != KIND_NOT_KNOWN) {
        e = at + 4;
        l->format_what = 0;
    } else {
        e = text_column(s, at, n, &l->format_what);
        if (!e) return 0;
    }
    l->format_end = e;
    l->name = e + 1;
    e = text_column(s, e + 1, n, &l->name_what);
    if (UNLIKELY(!e || (l->format_what | l->name_what) & ZERO)) return 0;
    l->name_end = e;
    e++;
    /* `F ~ C D\n`, as most lines end */
    if (LIKELY(n - e >= 8)) {
        u64 v = load8(s + e);
        u64 f = (v & 0xff) - '0', c = (v >> 32 & 0xff) - '0', d = (v >> 48 & 0xff) - '0';
        if (LIKELY((v & 0xff00ff00ffffff00u) == 0x0a002000207e2000u && f < 10 && c < 10 && d < 2)) {
            l->flags = (int64_t)f;
            l->meta = e + 2;
            l->meta_end = e + 3;
            l->children = c;
            l->dictionary = d;
            l->end = e + 8;
            return 1;
        }
    }
    return long_columns(s, e, n, l);
}

/* ---- formats */
enum below { NOTHING, FIRST, ALL, VALUES };
static const u8 BELOW[42] = { [27] = FIRST, [28] = FIRST, [29] = FIRST, [31] = FIRST, [30] = ALL, [41] = ALL, [32] = VALUES };

/* place + 1 */
static const u8 INDEX[256] = { ['c'] = 1, ['C'] = 6, ['s'] = 2, ['S'] = 7, ['i'] = 3, ['I'] = 8, ['l'] = 4, ['L'] = 9 };

struct type { u64 p, q; u8 kind, refused; const u8 *zone, *ids; };

/* A `usize` or an id's digits from p up to e, two digits a byte. */
static int parse(const u8 *p, const u8 *e, u64 max, u64 *v)
{
    u64 m = 0;
    if (p == e) return 0;
    for (; p < e; p += 2) {
        unsigned d = p[1] - '0';
        if (p[0] != '3' || d > 9 || m > max / 10 || max - m * 10 < d) return 0;
        m = m * 10 + d;
    }
    *v = m;
    return 1;
}
static int parse_size(const u8 *p, const u8 *e, u64 *v)
{
    if (e - p >= 2 && p[0] == '2' && p[1] == 'b') p += 2;
    return parse(p, e, UINT64_MAX, v);
}
static const u8 *part_end(const u8 *p, const u8 *e)
{
    while (p < e && !(p[0] == '2' && p[1] == 'c')) p += 2;
    return p;
}

static inline int says(const u8 *p, size_t digits, const char *t, size_t bytes)
{
    if (digits != 2 * bytes) return 0;
    for (size_t i = 0; i < bytes; i++)
        if (byte_of(p + 2 * i) != (u8)t[i]) return 0;
    return 1;
}
#define SAYS(p, d, t) says(p, d, t, sizeof t - 1)

static COLD struct type coloned(const u8 *f, size_t digits)
{
    const u8 *e = f + digits, *c = f;
    struct type t = { 0, 0, 0, 6, 0, 0 };
    while (c < e && !(c[0] == '3' && c[1] == 'a')) c += 2;
    if (c == e) return t;
    size_t head = (size_t)(c - f);
    const u8 *p = c + 2;
    if (head == 6 && byte_of(f) == 't' && byte_of(f + 2) == 's') {
        const char *u = memchr("smun", byte_of(f + 4), 4);
        if (!u) return t;
        t.refused = 0;
        t.kind = 15;
        t.p = (u64)(u[0] == 's' ? 0 : u[0] == 'm' ? 1 : u[0] == 'u' ? 2 : 3);
        t.zone = p < e ? p : 0;
    } else if (SAYS(f, head, "+ud") || SAYS(f, head, "+us")) {
        t.kind = 41;
        t.p = byte_of(f + 4) == 's';
        t.ids = p; /* tested as they are written */
        t.refused = 0;
    } else if (SAYS(f, head, "w") || SAYS(f, head, "+w")) {
        t.kind = head == 2 ? 23 : 28;
        t.refused = parse_size(p, e, &t.p) ? 0 : 7;
    } else if (SAYS(f, head, "d")) {
        const u8 *i = part_end(p, e), *j = i < e ? part_end(i + 2, e) : e, *k = j < e ? part_end(j + 2, e) : e;
        u64 width = 128;
        if (i == e || k < e) { t.refused = 8; return t; }
        if (j < e && !parse_size(j + 2, e, &width)) { t.refused = 7; return t; }
        t.kind = width == 32 ? 34 : width == 64 ? 35 : width == 256 ? 36 : 33;
        t.refused = parse_size(p, i, &t.p) && parse_size(i + 2, j, &t.q) ? 0 : 7;
    }
    return t;
}

static struct type long_type(const u8 *f, size_t digits)
{
    struct type t = { 0, 0, 0, 0, 0, 0 };
    if (digits == 6) {
        static const struct { char n[4]; u8 kind, unit; } THREE[13] = { { "tdD", 16, 0 }, { "tdm", 17, 0 }, { "tts", 18, 0 },
            { "ttm", 18, 1 }, { "ttu", 19, 2 }, { "ttn", 19, 3 }, { "tDs", 20, 0 }, { "tDm", 20, 1 }, { "tDu", 20, 2 },
            { "tDn", 20, 3 }, { "tiM", 21, 0 }, { "tiD", 21, 1 }, { "tin", 21, 2 } };
        if (f[0] == '7' && f[1] == '4')
            for (int i = 0; i < 13; i++)
                if (byte_of(f + 2) == (u8)THREE[i].n[1] && byte_of(f + 4) == (u8)THREE[i].n[2]) {
                    t.kind = THREE[i].kind;
                    t.p = THREE[i].unit;
                    return t;
                }
    }
    if (SAYS(f, digits, "_pli128")) { t.kind = 6; return t; }
    if (SAYS(f, digits, "_plu128")) { t.kind = 11; return t; }
    return coloned(f, digits);
}

static inline struct type type_of(const u8 *f, size_t digits, const struct line *l)
{
    struct type t = { 0, 0, 0, 0, 0, 0 };
    if (UNLIKELY(l->dictionary)) {
        u8 ix = digits == 2 ? INDEX[byte_of(f)] : 0;
        if (!ix) { t.refused = 9; return t; }
        t.kind = 32;
        t.p = ix - 1u;
        t.q = l->flags & 1;
        return t;
    }
    if (LIKELY(l->kind != KIND_NOT_KNOWN)) {
        t.kind = l->kind;
        if (t.kind == 31) t.p = l->flags >> 2 & 1;
    } else t = long_type(f, digits);
    if (!t.refused && BELOW[t.kind] == FIRST && !l->children) t.refused = 10;
    return t;
}

/* ---- writing */
static void put_number(struct out *o, u64 v, u8 after)
{
    u8 b[24];
    unsigned i = 24;
    b[--i] = after;
    do b[--i] = (u8)('0' + v % 10); while (v /= 10);
    put(o, b + i, 24 - i);
}

/* ids from p up to e: 0 if one does not read. What is written of them does not count then. */
static COLD int put_ids(struct out *o, const u8 *p, const u8 *e)
{
    u8 *q = o->o + o->w, *end = o->o + o->cap;
    for (int first = 1;; first = 0) {
        int minus = e - p >= 2 && p[0] == '2' && p[1] == 'd', plus = e - p >= 2 && p[0] == '2' && p[1] == 'b';
        const u8 *d;
        u64 m = 0;
        if (minus | plus) p += 2;
        for (d = p; d < e && d[0] == '3' && d[1] <= '9'; d += 2) {
            m = m * 10 + (d[1] - '0');
            if (UNLIKELY(m > 0x80000000u)) return 0;
        }
        if (d == p || m > 0x7fffffffu + (u64)minus || (d < e && !(d[0] == '2' && d[1] == 'c'))) return 0;
        u8 b[12];
        unsigned i = 12;
        const u8 *t;
        size_t n;
        /* without spare zeros the number's text is every second digit */
        n = (size_t)(d - p) / 2;
        if (LIKELY(p[1] != '0')) {
            if (LIKELY(!o->full && (size_t)(end - q) > n + 2)) {
                if (!first) *q++ = ',';
                if (minus) *q++ = '-';
                for (; p < d; p += 2) *q++ = p[1];
                goto next;
            }
        }
        do b[--i] = (u8)('0' + m % 10), m /= 10; while (m);
        if (minus && !(12 - i == 1 && b[i] == '0')) b[--i] = '-';
        if (!first) b[--i] = ',';
        t = b + i;
        n = 12 - i;
        if (o->full || (size_t)(end - q) < n) o->full = 1;
        else memcpy(q, t, n), q += n;
    next:
        if (d == e) break;
        p = d + 2;
    }
    if (!o->full) o->w = (size_t)(q - o->o);
    return 1;
}

/* `kind p 0 ~ ~ `, the first eight bytes */
#define H1(k) ((u64)('0' + (k)) | (u64)' ' << 8 | (u64)'0' << 16 | (u64)' ' << 24 | (u64)'0' << 32 | (u64)' ' << 40 | (u64)'~' << 48 | (u64)' ' << 56)
#define H2(k) ((u64)('0' + (k) / 10) | (u64)('0' + (k) % 10) << 8 | (u64)' ' << 16 | (u64)'0' << 24 | (u64)' ' << 32 | (u64)'0' << 40 | (u64)' ' << 48 | (u64)'~' << 56)
static const u64 HEADS[42] = { H1(0), H1(1), H1(2), H1(3), H1(4), H1(5), H1(6), H1(7), H1(8), H1(9), H2(10), H2(11), H2(12), H2(13),
    H2(14), H2(15), H2(16), H2(17), H2(18), H2(19), H2(20), H2(21), H2(22), H2(23), H2(24), H2(25), H2(26), H2(27), H2(28), H2(29),
    H2(30), H2(31), H2(32), H2(33), H2(34), H2(35), H2(36), H2(37), H2(38), H2(39), H2(40), H2(41) };

/* ---- metadata: an entry is four bytes of the key past what all keys share, where its text stands, and how long it is */
#define MOST 4096
#define AT(e) ((u32)(e) >> 16)
#define LEN(e) ((u32)(e) & 0xffff)
struct meta { u32 count, shared; u64 name, more; u64 *entries; int refused, extension, has_more; };

static inline u64 prefix(const u8 *m, u64 e, u32 shared)
{
    u32 at = AT(e) + shared, len = LEN(e) - shared;
    if (LIKELY(len >= 8)) return (u64)__builtin_bswap32(word_of(m + at)) << 32 | (u32)e;
    u32 v = 0;
    for (u32 i = 0; i < len; i += 2) v |= (u32)byte_of(m + at + i) << (24 - 4 * i);
    return (u64)v << 32 | (u32)e;
}
static COLD int compare_rest(const u8 *m, u64 a, u64 b)
{
    u32 n = LEN(a) < LEN(b) ? LEN(a) : LEN(b);
    int c = memcmp(m + AT(a), m + AT(b), n);
    return c ? c : (int)LEN(a) - (int)LEN(b);
}
static inline int compare(const u8 *m, u64 a, u64 b)
{
    u32 x = (u32)(a >> 32), y = (u32)(b >> 32);
    if (LIKELY(x != y)) return x < y ? -1 : 1;
    return compare_rest(m, a, b);
}
/* Sorts a[0..n), stable, with the last of equal keys kept; the answer is in a; how many there are. */
static u32 sort(const u8 *m, u64 *a, u64 *spare, u32 n)
{
    u32 k, i, j;
    if (n <= 10) {
        for (k = 0, i = 0; i < n; i++) {
            u64 e = a[i];
            int c = 1;
            for (j = k; j > 0 && (c = compare(m, e, a[j - 1])) < 0; j--) ;
            if (j > 0 && c == 0) { a[j - 1] = e; continue; }
            memmove(a + j + 1, a + j, (k - j) * sizeof *a);
            a[j] = e;
            k++;
        }
        return k;
    }
    u32 half = n / 2, x = sort(m, a, spare, half), y = sort(m, a + half, spare, n - half);
    if (compare(m, a[x - 1], a[half]) < 0) {
        if (x < half) memmove(a + x, a + half, y * sizeof *a);
        return x + y;
    }
    memcpy(spare, a, x * sizeof *a);
    for (i = 0, j = half, k = 0; i < x && j < half + y;) {
        u64 p = spare[i], q = a[j];
        if (LIKELY((p ^ q) >> 32)) { /* the prefixes stand highest */
            unsigned first = p < q;
            a[k++] = first ? p : q;
            i += first;
            j += first ^ 1;
            continue;
        }
        int c = compare_rest(m, p, q);
        a[k++] = c < 0 ? p : q;
        i += c <= 0;
        j += c >= 0;
    }
    if (i < x) memcpy(a + k, spare + i, (x - i) * sizeof *a), k += x - i;
    else memmove(a + k, a + j, (half + y - j) * sizeof *a), k += half + y - j;
    return k;
}

static COLD void read_metadata(const u8 *m, size_t digits, struct meta *r, u64 *entries, u64 *spare)
{
    r->entries = entries;
    if (digits < 8) { r->refused = 11; return; }
    u32 n = word_of(m), count = 0, shared = 65535;
    size_t at = 8;
    int sorted = 1;
    if (n > 0x7fffffff) n = 0;
    for (u32 i = 0; i < n; i++) {
        size_t key = at + 8;
        u64 k, v;
        if (digits - at < 8 || (k = word_of(m + at), (digits - key) / 2 < k)) { r->refused = 11; return; }
        if (!text_is_utf8(m + key, 2 * k)) { r->refused = 5; return; }
        at = key + 2 * k;
        if (digits - at < 8 || (v = word_of(m + at), (digits - at - 8) / 2 < v)) { r->refused = 11; return; }
        if (!text_is_utf8(m + at + 8, 2 * v)) { r->refused = 5; return; }
        at += 8 + 2 * v;
        u64 e = (u64)key << 16 | 2 * k;
        if (UNLIKELY(k == 20) && SAYS(m + key, 40, "ARROW:extension:name")) { r->name = e; r->extension = 1; continue; }
        if (UNLIKELY(k == 24) && SAYS(m + key, 48, "ARROW:extension:metadata")) { r->more = e; r->has_more = 1; continue; }
        if (count) { /* what it shares with the first key */
            const u8 *p = m + AT(entries[0]), *q = m + key;
            u32 most = shared < 2 * k ? shared : (u32)(2 * k), c = 0;
            while (c + 8 <= most && load8(p + c) == load8(q + c)) c += 8;
            while (c + 2 <= most && load2(p + c) == load2(q + c)) c += 2;
            shared = c;
        } else shared = (u32)(2 * k);
        entries[count++] = e;
    }
    for (u32 i = 0; i < count; i++) {
        entries[i] = prefix(m, entries[i], shared);
        if (i && sorted) sorted = compare(m, entries[i - 1], entries[i]) < 0;
    }
    r->count = sorted ? count : sort(m, entries, spare, count);
    r->shared = shared;
}

static COLD void put_value(struct out *o, const u8 *m, u64 e, int is)
{
    if (!is) { put(o, "~ ", 2); return; }
    u32 k = AT(e) + LEN(e), n = 2 * word_of(m + k);
    if (!n) put(o, "-", 1);
    put(o, m + k + 8, n);
    put(o, " ", 1);
}

static COLD void put_pairs(struct out *o, const u8 *m, const struct meta *d)
{
    if (!d->count) { put(o, "~ ", 2); return; }
    for (u32 i = 0; i < d->count; i++) {
        u64 e = d->entries[i];
        u32 kn = LEN(e), v = AT(e) + kn, vn = 2 * word_of(m + v);
        u8 *p = room(o, kn + vn + 2);
        if (!p) return;
        copy_even(p, m + AT(e), kn);
        p[kn] = '=';
        copy_even(p + kn + 1, m + v + 8, vn);
        p[kn + vn + 1] = ',';
    }
    if (!o->full) o->o[o->w - 1] = ' ';
}

static COLD void put_own(struct out *o, const u8 *s, const struct line *l, int bare, const struct meta *d)
{
    if (bare) { put(o, "~ ~ ~ ", 6); return; }
    if (s[l->name] == '~') put(o, "-", 1);
    else put(o, s + l->name, l->name_end - l->name);
    put(o, l->flags & 2 ? " 1 " : " 0 ", 3);
    put_pairs(o, s + l->meta, d);
}

/* A node of any kind. The number of its refusal, at once; *pending for the one that comes after what stands below. */
static COLD int put_node(struct out *o, const u8 *s, size_t at, const struct line *l, struct type t, u64 children, int bare, int *pending)
{
    u64 entries[MOST], spare[MOST / 2 + 1];
    struct meta d = { 0 };
    if (s[l->meta] != '~') {
        size_t digits = s[l->meta] == '-' ? 0 : l->meta_end - l->meta;
        read_metadata(s + l->meta, digits, &d, entries, spare);
    }
    if (!d.refused && l->name_what & HIGH && !utf8(s + l->name, l->name_end - l->name)) d.refused = 5;
    if (d.refused) { /* all ids are tested before */
        u8 nowhere[1];
        struct out none = { nowhere, 0, 0, 1 };
        if (t.ids && !put_ids(&none, t.ids, s + l->format_end)) return 7;
        *pending = d.refused;
        return 0;
    }
    if (d.extension) {
        put(o, "37 0 0 ", 7);
        put_value(o, s + l->meta, d.name, 1);
        put_value(o, s + l->meta, d.more, d.has_more);
        put_own(o, s, l, bare, &d);
        put(o, "1\n", 2);
        bare = 1;
    }
    put_number(o, t.kind, ' ');
    put_number(o, t.p, ' ');
    put_number(o, t.q, ' ');
    if (t.zone) put(o, t.zone, (size_t)(s + l->format_end - t.zone));
    else if (t.ids) {
        if (!put_ids(o, t.ids, s + l->format_end)) return 7;
    }
    else put(o, "~", 1);
    put(o, " ~ ", 3);
    put_own(o, s, l, bare, &d);
    put_number(o, children, '\n');
    (void)at;
    return 0;
}

/* ---- a run of leaves, as a struct has them: `FF NAME.. F ~ 0 0`, a format of one byte, an ASCII name, no metadata, nothing below. At most
 * `most` lines from at on, as long as they are of that form and fit. A name's last block is copied whole: the next visited line writes over
 * what is too much, so the caller keeps one back. Lines of any other form are left to the caller. */
static inline size_t leaves(const u8 *s, size_t *from, size_t n, struct out *o, u64 most)
{
    size_t at = *from, w = o->w, done = 0;
#ifdef __SSE2__
    const __m128i zero = _mm_set1_epi8('0'), small = _mm_set1_epi8('a'), nine = _mm_set1_epi8(9), five = _mm_set1_epi8(5);
    u8 *out = o->o;
    size_t cap = o->cap;
    while (done < most) {
        if (n - at < 32) break;
        unsigned a = s[at], b = s[at + 1];
        if (s[at + 2] != ' ' || !(IS_HEX[a] & IS_HEX[b])) break;
        unsigned kind = ONE[(u8)(digit(a) << 4 | digit(b))];
        if (!kind--) break;
        size_t i = at + 3, h = 10 + (kind > 9), to = w + h;
        for (;;) {
            if (n - i < 16 || cap - to < 16 || cap < to) goto end;
            __m128i v = _mm_loadu_si128((const __m128i *)(s + i));
            __m128i d = _mm_sub_epi8(v, zero), c = _mm_sub_epi8(v, small);
            __m128i ok = _mm_or_si128(_mm_cmpeq_epi8(_mm_min_epu8(d, nine), d), _mm_cmpeq_epi8(_mm_min_epu8(c, five), c));
            unsigned stop = (unsigned)_mm_movemask_epi8(ok) ^ 0xffff;
            unsigned z = (unsigned)_mm_movemask_epi8(_mm_cmpeq_epi8(v, zero));
            unsigned bad = (unsigned)_mm_movemask_epi8(_mm_or_si128(_mm_slli_epi16(v, 4), _mm_slli_epi16(v, 1))) | (z & z >> 1);
            _mm_storeu_si128((__m128i *)(out + to), v);
            if (UNLIKELY(bad & 0x5555 & (stop - 1) & ~stop)) goto end;
            if (stop) {
                unsigned k = (unsigned)__builtin_ctz(stop);
                i += k;
                to += k;
                break;
            }
            i += 16;
            to += 16;
        }
        if (((i - at) & 1) == 0 || i == at + 3 || n - i < 9 || cap - to < 7 || cap < to) break;
        u64 f = load8(s + i + 1) - 0x0a302030207e2030u; /* `0 ~ 0 0\n` */
        if (f > 9 || s[i] != ' ') break;
        store8(out + w, HEADS[kind]);
        if (kind > 9) out[w + 8] = ' ', out[w + 9] = '~', out[w + 10] = ' ';
        else out[w + 8] = '~', out[w + 9] = ' ';
        store4(out + to, 0x7e203020 + ((u32)(f >> 1 & 1) << 8)); /* ` 0 ~` */
        store4(out + to + 3, 0x0a30207e);                         /* `~ 0\n` */
        w = to + 7;
        at = i + 9;
        done++;
    }
end:
#else
    (void)s, (void)n, (void)most;
#endif
    *from = at;
    o->w = w;
    return done;
}

/* A subtree's node that is open: how many subtrees are to come, which of them are visited. */
struct frame { u64 left, skip, visit; u8 bare, pending; };

struct answer by_hand_import(const u8 *s, size_t n, u8 *out, size_t cap)
{
    struct frame stack[32];
    struct out o = { out, 0, cap, 0 };
    struct line l;
    unsigned depth = 0;
    int refused = 0, deep = 0;
    u64 due = 1;
    size_t at = 47;
    if (n > LONGEST || n < 47 || memcmp(s, SCHEMA_HEADING, 47)) return refuse(out, cap, 1);
    put(&o, FIELD_HEADING, 48);
    stack[0] = (struct frame){ 1, 0, 1, 0, 0 };
    while (due) {
        if (stack[depth].visit > 2 && !(stack[depth].skip | stack[depth].bare | (u64)(refused | deep | o.full))) {
            u64 k = leaves(s, &at, n, &o, stack[depth].visit - 1);
            stack[depth].visit -= k;
            stack[depth].left -= k;
            due -= k;
        }
        if (UNLIKELY(!read_line(s, at, n, &l))) return refuse(out, cap, 2);
        u64 below = l.children + l.dictionary;
        due += below - 1;
        if (UNLIKELY(due > n - l.end)) return refuse(out, cap, 2);
        struct frame *f = stack + depth;
        if (UNLIKELY(deep)) { at = l.end; continue; }
        f->left--;
        u64 skip = 0, visit = 0;
        int pending = 0, bare_below = 0;
        if (LIKELY(!f->skip && f->visit)) { /* visited */
            f->visit--;
            if (LIKELY(!refused)) {
                const u8 *p = s + at;
                struct type t;
                if (UNLIKELY(*p == '~')) refused = 4;
                else if (UNLIKELY(l.format_what & HIGH && !utf8(p, l.format_end - at))) refused = 5;
                else {
                    t = type_of(p, *p == '-' ? 0 : l.format_end - at, &l);
                    refused = t.refused;
                }
                if (LIKELY(!refused)) {
                    unsigned b = BELOW[t.kind];
                    u64 children = b == ALL ? l.children : b != NOTHING;
                    size_t name = l.name_end - l.name, h = 10 + (t.kind > 9);
                    if (LIKELY(s[l.meta] == '~' && (t.p | t.q) < 10 && !t.zone && !t.ids && children < 10 && !f->bare
                            && !(l.name_what & HIGH))) {
                        if (LIKELY(!o.full && o.cap - o.w >= h + name + 7)) {
                            u8 *q = o.o + o.w;
                            unsigned shift = t.kind > 9 ? 24 : 16;
                            store8(q, HEADS[t.kind] + (t.p << shift) + (t.q << (shift + 16)));
                            store4(q + 8, t.kind > 9 ? 0x207e20 : 0x207e); /* ` ~ ` or `~ ` */
                            q += h;
                            if (UNLIKELY(s[l.name] == '~')) *q = '-';
                            else copy8(q, s + l.name, name);
                            q += name;
                            store4(q, 0x7e203020 + ((u32)(l.flags >> 1 & 1) << 8)); /* ` 0 ~` */
                            store4(q + 3, 0x0a30207e + (u32)(children << 16)); /* `~ C\n` */
                            o.w += h + name + 7;
                        } else o.full = 1;
                    } else refused = put_node(&o, s, at, &l, t, children, f->bare, &pending);
                    skip = b == FIRST || b == ALL ? 0 : l.children;
                    visit = b == VALUES ? 1 : children;
                    bare_below = b == VALUES;
                }
            }
        } else if (f->skip) f->skip--;
        at = l.end;
        if (below) {
            if (UNLIKELY(depth == 31)) { deep = 1; continue; }
            depth++;
            stack[depth] = (struct frame){ below, skip, visit, (u8)bare_below, (u8)pending };
        } else {
            if (UNLIKELY(pending && !refused)) refused = pending;
            while (depth && !stack[depth].left) {
                if (UNLIKELY(stack[depth].pending && !refused)) refused = stack[depth].pending;
                depth--;
            }
        }
    }
    if (at != n) return refuse(out, cap, 2);
    if (deep) return refuse(out, cap, 3);
    if (refused) return refuse(out, cap, (u64)refused);
    if (o.full) return refuse(out, cap, 16);
    struct answer a = { 0, o.w };
    return a;
}
