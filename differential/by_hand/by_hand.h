/* What the import and the export by hand share: a measure of what the machine can do, not part of the product.
 *
 * Each byte of a text is looked at once, sixteen at a time (SSE2, which every x86-64 has; elsewhere one by one), and in that look it is tested for
 * digits, for byte 00 and for ASCII. */
#ifndef BY_HAND_H
#define BY_HAND_H

#include <stdint.h>
#include <stddef.h>
#include <string.h>
#ifdef __SSE2__
#include <emmintrin.h>
#endif

typedef uint8_t u8;
typedef uint16_t u16;
typedef uint32_t u32;
typedef uint64_t u64;

struct answer { u64 number, length; };

/* Little-endian metadata; export is the one that is not strict. The buffers may not overlap. */
struct answer by_hand_import(const u8 *s, size_t n, u8 *out, size_t cap);
struct answer by_hand_export(const u8 *s, size_t n, u8 *out, size_t cap);

#define LONGEST 65535
#define SCHEMA_HEADING "format name flags metadata children dictionary\n"
#define FIELD_HEADING "kind p q text more name nullable pairs children\n"

#define LIKELY(x) __builtin_expect(!!(x), 1)
#define UNLIKELY(x) __builtin_expect(!!(x), 0)
#define COLD __attribute__((noinline, cold))

/* Words are taken and made with the first byte lowest. */
#if __BYTE_ORDER__ != __ORDER_LITTLE_ENDIAN__
#error "written for a little-endian machine"
#endif
static inline u64 load8(const u8 *p) { u64 v; memcpy(&v, p, 8); return v; }
static inline u32 load4(const u8 *p) { u32 v; memcpy(&v, p, 4); return v; }
static inline u16 load2(const u8 *p) { u16 v; memcpy(&v, p, 2); return v; }
static inline void store8(u8 *p, u64 v) { memcpy(p, &v, 8); }
static inline void store4(u8 *p, u32 v) { memcpy(p, &v, 4); }

/* ---- digits */
static const u8 IS_HEX[256] = { ['0'] = 1, ['1'] = 1, ['2'] = 1, ['3'] = 1, ['4'] = 1, ['5'] = 1, ['6'] = 1, ['7'] = 1,
    ['8'] = 1, ['9'] = 1, ['a'] = 1, ['b'] = 1, ['c'] = 1, ['d'] = 1, ['e'] = 1, ['f'] = 1 };

static inline unsigned digit(u8 b) { return (b & 15) + 9 * (b >> 6); }
static inline u8 byte_of(const u8 *p) { return (u8)(digit(p[0]) << 4 | digit(p[1])); }

enum { ZERO = 1, HIGH = 2 };

/* The end of the digits from i on; what holds of the pairs: one is 00, one is past ASCII. */
static inline size_t hex_end(const u8 *s, size_t i, size_t n, unsigned *what)
{
    unsigned w = 0;
#ifdef __SSE2__
    const __m128i zero = _mm_set1_epi8('0'), small = _mm_set1_epi8('a'), nine = _mm_set1_epi8(9), five = _mm_set1_epi8(5);
    __m128i all = _mm_setzero_si128();
    unsigned zeros = 0;
    while (LIKELY(n - i >= 16)) {
        __m128i v = _mm_loadu_si128((const __m128i *)(s + i));
        __m128i d = _mm_sub_epi8(v, zero), a = _mm_sub_epi8(v, small);
        __m128i ok = _mm_or_si128(_mm_cmpeq_epi8(_mm_min_epu8(d, nine), d), _mm_cmpeq_epi8(_mm_min_epu8(a, five), a));
        unsigned stop = (unsigned)_mm_movemask_epi8(ok) ^ 0xffff;
        unsigned z = (unsigned)_mm_movemask_epi8(_mm_cmpeq_epi8(v, zero));
        z &= z >> 1 & 0x5555;
        if (stop) {
            unsigned h = (unsigned)_mm_movemask_epi8(_mm_slli_epi16(v, 4) | _mm_slli_epi16(v, 1)), below = (stop - 1) & ~stop;
            w |= ((zeros | (z & below)) ? ZERO : 0) | ((h & below & 0x5555) ? HIGH : 0);
            h = (unsigned)_mm_movemask_epi8(_mm_slli_epi16(all, 4) | _mm_slli_epi16(all, 1));
            *what = w | (h & 0x5555 ? HIGH : 0);
            return i + (size_t)__builtin_ctz(stop);
        }
        all = _mm_or_si128(all, v);
        zeros |= z;
        i += 16;
    }
    w = (zeros ? ZERO : 0) | ((unsigned)_mm_movemask_epi8(_mm_slli_epi16(all, 4) | _mm_slli_epi16(all, 1)) & 0x5555 ? HIGH : 0);
#endif
    for (size_t start = i; i < n && IS_HEX[s[i]]; i++)
        if ((i - start) % 2 == 0)
            w |= s[i] > '7' ? HIGH : 0;
        else
            w |= s[i] == '0' && s[i - 1] == '0' ? ZERO : 0;
    *what = w;
    return i;
}

/* ---- UTF-8 of digits, for a text that is not all ASCII */
static COLD int utf8(const u8 *p, size_t digits)
{
    for (size_t i = 0; i < digits;) {
        unsigned b = byte_of(p + i), lo = 0x80, hi = 0xbf, more;
        i += 2;
        if (b < 0x80) continue;
        if (b >= 0xc2 && b <= 0xdf) more = 1;
        else if (b >= 0xe0 && b <= 0xef) { more = 2; if (b == 0xe0) lo = 0xa0; if (b == 0xed) hi = 0x9f; }
        else if (b >= 0xf0 && b <= 0xf4) { more = 3; if (b == 0xf0) lo = 0x90; if (b == 0xf4) hi = 0x8f; }
        else return 0;
        if (digits - i < 2 * more) return 0;
        for (; more; more--, i += 2, lo = 0x80, hi = 0xbf) {
            unsigned c = byte_of(p + i);
            if (c < lo || c > hi) return 0;
        }
    }
    return 1;
}

/* ---- columns */
/* The end e of the digits of a text's column from at on: its end, or 0. */
static inline size_t column_end(const u8 *s, size_t at, size_t n, size_t e)
{
    if (UNLIKELY(e == at)) {
        if (at >= n || (s[at] != '~' && s[at] != '-')) return 0;
        e = at + 1;
    } else if (UNLIKELY((e - at) % 2)) return 0;
    return LIKELY(e < n && s[e] == ' ') ? e : 0;
}
static size_t text_column(const u8 *s, size_t at, size_t n, unsigned *what)
{
    return column_end(s, at, n, hex_end(s, at, n, what));
}

/* Digits without spare zeros, at most max, ended by stop: the place of stop, or 0. */
static COLD size_t number_column(const u8 *s, size_t i, size_t n, u8 stop, u64 max, u64 *v)
{
    size_t at = i;
    u64 m = 0;
    for (; i < n && (unsigned)s[i] - '0' < 10; i++) {
        unsigned d = s[i] - '0';
        if (m > max / 10 || max - m * 10 < d) return 0;
        m = m * 10 + d;
    }
    if (i == at || i >= n || s[i] != stop || (s[at] == '0' && i - at > 1)) return 0;
    *v = m;
    return i;
}

/* ---- writing: when something does not fit, nothing more is written, since the answer is a refusal in any case */
struct out { u8 *o; size_t w, cap; int full; };

static inline u8 *room(struct out *o, size_t n)
{
    if (UNLIKELY(o->full || o->cap - o->w < n)) { o->full = 1; return 0; }
    u8 *p = o->o + o->w;
    o->w += n;
    return p;
}
static inline void put(struct out *o, const void *t, size_t n)
{
    u8 *p = room(o, n);
    if (p) memcpy(p, t, n);
}

/* Text by eights: up to seven bytes more are read and written, where the caller knows of room. */
static inline void copy8(u8 *to, const u8 *from, size_t n)
{
    for (size_t i = 0; i < n; i += 8) store8(to + i, load8(from + i));
}

/* An even number of bytes and no more. */
static inline void copy_even(u8 *to, const u8 *from, size_t n)
{
    if (n >= 8) {
        for (size_t i = 0; i + 8 <= n; i += 8) store8(to + i, load8(from + i));
        store8(to + n - 8, load8(from + n - 8));
    } else if (n >= 4) {
        u32 a = load4(from), b = load4(from + n - 4);
        store4(to, a);
        store4(to + n - 4, b);
    } else if (n) memcpy(to, from, 2);
}

static COLD struct answer refuse(u8 *out, size_t cap, u64 number)
{
    struct answer a = { number, 0 };
    if (cap) memset(out, 0, cap);
    return a;
}

#endif
