/* A fuzzer's entry: any bytes are put to import and its measure or, compiled with READS_field, to the calls that read a field sheet; but for the last
 * byte, which says the order to those that take one. The sheet ends and each buffer ends where a page that cannot be touched begins, so that a read or a
 * write past either ends the run; the promises of the header are tested. `host/fuzz` links it with libFuzzer's main and the library's code with coverage
 * counters. */
#define _GNU_SOURCE
#include <stdint.h>
#include <stdlib.h>
#include <string.h>
#include <sys/mman.h>

#include "../include/juzontefa.h"

#define SHEET (1u << 17)
#define ROOM (1u << 20)
#define PAGE 4096u
#define UNTOUCHED 0xa5

typedef struct juzontefa_answer call(const uint8_t *sheet, size_t sheet_len, uint8_t *out, size_t out_len);

/* Where the bytes end that a sheet and five buffers can have. */
static uint8_t *sheet_end, *end[5];

/* The end of `size` bytes with a page behind them that cannot be touched. */
static uint8_t *fenced(size_t size) {
    uint8_t *area = mmap(NULL, size + PAGE, PROT_READ | PROT_WRITE, MAP_PRIVATE | MAP_ANONYMOUS, -1, 0);
    if (area == MAP_FAILED || mprotect(area + size, PAGE, PROT_NONE) != 0) abort();
    return area + size;
}

/* The byte order that a call with one is asked for. */
static uint64_t big;

static struct juzontefa_answer import(const uint8_t *sheet, size_t size, uint8_t *out, size_t room) {
    return juzontefa_import_with_order(sheet, size, big, out, room);
}

static void require(int holds) {
    if (!holds) abort();
}

static void all(const uint8_t *from, const uint8_t *to, uint8_t byte) {
    for (; from < to; from++) require(*from == byte);
}

/* One call with a buffer of `room` bytes: the answer, one of the call's numbers (a bit for each), held against the header. */
static struct juzontefa_answer ask(call *call, uint32_t numbers, const uint8_t *sheet, size_t size, size_t room) {
    uint8_t *out = end[4] - room;
    memset(out, UNTOUCHED, room);
    struct juzontefa_answer answer = call(sheet, size, out, room);
    require(answer.number <= 18 && (numbers >> answer.number & 1));
    require(answer.number != 0 ? answer.length == 0 : answer.length <= room);
    all(out + answer.length, end[4], answer.number != 0 ? 0 : UNTOUCHED);
    return answer;
}

/* A call with a buffer that holds any answer, with the exact one, with one that is a byte short, and with none. */
static struct juzontefa_answer ask_all(call *call, uint32_t numbers, const uint8_t *sheet, size_t size, size_t room) {
    struct juzontefa_answer answer = ask(call, numbers, sheet, size, room < ROOM ? room : ROOM);
    require(answer.number != 16);
    if (answer.number == 0) {
        require(ask(call, numbers, sheet, size, answer.length).length == answer.length);
        require(ask(call, numbers, sheet, size, answer.length - 1).number == 16);
    }
    require(ask(call, numbers, sheet, size, 0).number == (answer.number == 0 ? 16 : answer.number));
    return answer;
}

/* The answer of a call with an order comes again: for order 0 from the call without one, for every other number from order 1. */
static void comes_again(call *with, call *without, const uint8_t *sheet, size_t size, struct juzontefa_answer answer) {
    uint64_t asked = big;
    ask(with, UINT32_MAX, sheet, size, answer.length);
    memcpy(end[3] - answer.length, end[4] - answer.length, answer.length);
    big = asked != 0;
    struct juzontefa_answer again = ask(big ? with : without, UINT32_MAX, sheet, size, answer.length);
    big = asked;
    require(again.number == answer.number && again.length == answer.length);
    require(memcmp(end[3] - answer.length, end[4] - answer.length, answer.length) == 0);
}

typedef struct juzontefa_measure measure(const uint8_t *sheet, size_t sheet_len, uint64_t big);

/* How many of the lines have this text at their start. */
static size_t lines_with(const char *start, const uint8_t *bytes, size_t size) {
    size_t count = 0, length = strlen(start);
    for (const uint8_t *line = bytes, *stop = bytes + size; line < stop; line++) {
        count += (size_t)(stop - line) >= length && memcmp(line, start, length) == 0;
        line = memchr(line, '\n', (size_t)(stop - line));
        if (line == NULL) break;
    }
    return count;
}

/* The measure under the order at hand is what the conversion answered with a buffer that held any answer; for every number but 0 as for 1. */
static struct juzontefa_measure measures(measure *measure, const uint8_t *sheet, size_t size, struct juzontefa_answer converted) {
    struct juzontefa_measure m = measure(sheet, size, big), again = measure(sheet, size, big != 0);
    require(m.number == converted.number && m.length == converted.length);
    require(m.number == 0 ? m.lines >= 1 && m.lines < lines_with("", sheet, size) : m.lines == 0);
    require(again.number == m.number && again.length == m.length && again.lines == m.lines);
    return m;
}

#ifndef READS_field

/* Each line that is visited becomes one, and each extension of metadata one more. */
static void measured(const uint8_t *sheet, size_t size, struct juzontefa_answer imported) {
    struct juzontefa_measure m = measures(juzontefa_measure_import, sheet, size, imported);
    if (m.number != 0) return;
    ask(import, 1, sheet, size, m.length);
    const uint8_t *field = end[4] - m.length;
    require(m.lines == lines_with("", field, m.length) - 1 - lines_with("37 ", field, m.length));
}

static void calls(const uint8_t *sheet, size_t size) {
    struct juzontefa_answer imported = ask_all(import, 0x10fff, sheet, size, JUZONTEFA_IMPORT_ROOM(size));
    comes_again(import, juzontefa_import, sheet, size, imported);
    measured(sheet, size, imported);
}

#else

/* The index or place that a call with one is asked for. */
static uint64_t place;

#define EXPORTS 0x1700f
#define STRICT_EXPORTS (EXPORTS | 1u << JUZONTEFA_RESERVED_KEY | 1u << JUZONTEFA_WIDE_INDEX)
#define PLAINS 0x1000f
#define LINE 73u

static struct juzontefa_answer export(const uint8_t *sheet, size_t size, uint8_t *out, size_t room) {
    return juzontefa_export_with_order(sheet, size, big, out, room);
}

static struct juzontefa_answer strict_export(const uint8_t *sheet, size_t size, uint8_t *out, size_t room) {
    return juzontefa_strict_export(sheet, size, big, out, room);
}

/* Whether round trips are strict. */
static int strictly;

/* By the call without an order for half of the sheets with order 0. */
static struct juzontefa_trip round_trip(const uint8_t *sheet, size_t size, uint8_t *const out[4], const size_t room[4]) {
    if (strictly)
        return juzontefa_strict_round_trip(sheet, size, big, out[0], room[0], out[1], room[1], out[2], room[2], out[3], room[3]);
    if (big == 0 && size % 2 == 0)
        return juzontefa_round_trip(sheet, size, out[0], room[0], out[1], room[1], out[2], room[2], out[3], room[3]);
    return juzontefa_round_trip_with_order(sheet, size, big, out[0], room[0], out[1], room[1], out[2], room[2], out[3], room[3]);
}

/* A round trip with these rooms; on refusal all four buffers are zeros. */
static struct juzontefa_trip travel(const uint8_t *sheet, size_t size, const size_t room[4]) {
    uint8_t *out[4];
    for (int i = 0; i < 4; i++) out[i] = memset(end[i] - room[i], UNTOUCHED, room[i]);
    struct juzontefa_trip trip = round_trip(sheet, size, out, room);
    require(trip.answer <= JUZONTEFA_AGAIN_DIFFERS);
    int refused = trip.answer >= JUZONTEFA_EXPORT_REFUSED && trip.answer <= JUZONTEFA_AGAIN_REFUSED;
    require(refused ? trip.number >= 1 && trip.number <= (strictly ? 18 : 16) : trip.number == 0);
    for (int i = 0; refused && i < 4; i++) all(out[i], end[i], 0);
    return trip;
}

/* The buffer of a step holds what the call answers by itself, and is untouched past it; the length. */
static size_t holds(int step, size_t room, call *call, uint32_t numbers, const uint8_t *sheet, size_t size) {
    uint8_t *out = end[step] - room;
    struct juzontefa_answer answer = ask(call, numbers, sheet, size, room);
    require(answer.number == 0 && memcmp(out, end[4] - room, answer.length) == 0);
    all(out + answer.length, end[step], UNTOUCHED);
    return answer.length;
}

/* Whether a reserved key or a dictionary's index of 128 bits may be in the sheet. */
static int is_apart(const uint8_t *sheet, size_t size) {
    static const char *const marks[] = { "4152524f573a657874656e73696f6e3a", "\n32 4 ", "\n32 9 " };
    for (int i = 0; i < 3; i++)
        if (memmem(sheet, size, marks[i], strlen(marks[i]))) return 1;
    return 0;
}

static void trips(const uint8_t *sheet, size_t size, struct juzontefa_answer exported, struct juzontefa_answer plain) {
    size_t x = exported.length, p = plain.length;
    size_t room[4] = { x + 16, JUZONTEFA_IMPORT_ROOM(x), p + 16, x + 16 };
    struct juzontefa_trip trip = travel(sheet, size, room);
    if (exported.number != 0) {
        require(trip.answer == JUZONTEFA_EXPORT_REFUSED && trip.number == exported.number);
        return;
    }
    require(trip.answer != JUZONTEFA_EXPORT_REFUSED && trip.answer != JUZONTEFA_PLAIN_REFUSED);
    if (trip.answer == JUZONTEFA_IMPORT_REFUSED || trip.answer == JUZONTEFA_AGAIN_REFUSED) return;
    require(holds(0, room[0], export, EXPORTS, sheet, size) == x);
    size_t imported = holds(1, room[1], import, 1, end[0] - room[0], x);
    require(holds(2, room[2], juzontefa_plain_form, PLAINS, sheet, size) == p);
    size_t again = holds(3, room[3], export, EXPORTS, end[2] - room[2], p);
    int same = imported == p && memcmp(end[1] - room[1], end[2] - room[2], p) == 0;
    int same_again = again == x && memcmp(end[3] - room[3], end[0] - room[0], x) == 0;
    require(trip.answer == (!same ? JUZONTEFA_IMPORT_DIFFERS : !same_again ? JUZONTEFA_AGAIN_DIFFERS : JUZONTEFA_ALL_SAME));
    require(trip.answer == JUZONTEFA_ALL_SAME || is_apart(sheet, size));

    /* the exact buffers, then one of them a byte short */
    size_t exact[4] = { x, imported, p, again };
    require(travel(sheet, size, exact).answer == trip.answer);
    size_t step = size % 4;
    exact[step]--;
    trip = travel(sheet, size, exact);
    require(trip.answer == JUZONTEFA_EXPORT_REFUSED + step && trip.number == 16);
}

/* ── strict export */

/* Where the column at a place, from 0, of the line begins. */
static const uint8_t *column(const uint8_t *line, const uint8_t *stop, int place) {
    for (; place > 0 && line != NULL && line < stop; place--) {
        line = memchr(line, ' ', (size_t)(stop - line));
        if (line != NULL) line++;
    }
    return line;
}

static int begins(const uint8_t *at, const uint8_t *stop, const char *text) {
    return (size_t)(stop - at) >= strlen(text) && memcmp(at, text, strlen(text)) == 0;
}

/* 17 or 18 for a line that ends before `stop`, else 0: by its columns as they stand, which have the right form. */
static uint64_t cause_of(const uint8_t *line, const uint8_t *stop) {
    static const char *const keys[] = { "4152524f573a657874656e73696f6e3a6e616d65=", "4152524f573a657874656e73696f6e3a6d65746164617461=" };
    const uint8_t *pairs = column(line, stop, 7), *end_of_pairs = column(line, stop, 8);
    for (const uint8_t *pair = pairs; pair != NULL && pair < end_of_pairs;) {
        if (begins(pair, stop, keys[0]) || begins(pair, stop, keys[1])) return JUZONTEFA_RESERVED_KEY;
        pair = memchr(pair, ',', (size_t)(end_of_pairs - pair));
        if (pair != NULL) pair++;
    }
    return begins(line, stop, "32 4 ") || begins(line, stop, "32 9 ") ? JUZONTEFA_WIDE_INDEX : 0;
}

/* That of the first line below the heading that has one. */
static uint64_t first_cause(const uint8_t *sheet, size_t size) {
    const uint8_t *stop = sheet + size, *line = memchr(sheet, '\n', size);
    while (line != NULL && ++line < stop) {
        const uint8_t *next = memchr(line, '\n', (size_t)(stop - line));
        uint64_t cause = next == NULL ? 0 : cause_of(line, next);
        if (cause != 0) return cause;
        line = next;
    }
    return 0;
}

/* After the form of the sheet the first cause, else what the present export answers; for every number but 0 as for 1. */
static struct juzontefa_answer strict_exports(const uint8_t *sheet, size_t size, struct juzontefa_answer exported) {
    struct juzontefa_answer strict = ask_all(strict_export, STRICT_EXPORTS, sheet, size, JUZONTEFA_EXPORT_ROOM(size));
    uint64_t cause = exported.number >= 1 && exported.number <= 3 ? 0 : first_cause(sheet, size);
    comes_again(strict_export, strict_export, sheet, size, strict);
    require(strict.number == (cause != 0 ? cause : exported.number));
    require(strict.length == (cause != 0 ? 0 : exported.length));
    if (strict.number == 0) {
        ask(strict_export, 1, sheet, size, strict.length);
        memcpy(end[3] - strict.length, end[4] - strict.length, strict.length);
        ask(export, 1, sheet, size, strict.length);
        require(memcmp(end[3] - strict.length, end[4] - strict.length, strict.length) == 0);
    }
    return strict;
}

/* A strict round trip is refused where strict export is; else all is the same, or a sheet is too long to be handed in. */
static void strict_trips(const uint8_t *sheet, size_t size, struct juzontefa_answer strict, struct juzontefa_answer plain) {
    size_t x = strict.length, p = plain.length;
    size_t room[4] = { x, JUZONTEFA_IMPORT_ROOM(x), p, x };
    strictly = 1;
    struct juzontefa_trip trip = travel(sheet, size, room);
    strictly = 0;
    if (strict.number != 0)
        require(trip.answer == JUZONTEFA_EXPORT_REFUSED && trip.number == strict.number);
    else if (trip.answer != JUZONTEFA_ALL_SAME)
        require((trip.answer == JUZONTEFA_IMPORT_REFUSED || trip.answer == JUZONTEFA_AGAIN_REFUSED) && trip.number == JUZONTEFA_NOT_SHEET);
}

/* A page is refused exactly where plain form is, with `form`; else it has one line for each of the sheet's below the heading. */
static void pages(const uint8_t *sheet, size_t size, uint64_t form) {
    struct juzontefa_answer page = ask_all(juzontefa_page, PLAINS, sheet, size, JUZONTEFA_PAGE_ROOM(size));
    require(page.number == form);
    if (form != 0) return;
    size_t lines = 0;
    for (size_t i = 0; i < size; i++) lines += sheet[i] == '\n';
    require(page.length == (lines - 1) * LINE);
    ask(juzontefa_page, 1, sheet, size, page.length);
    for (const uint8_t *line = end[4] - page.length; line < end[4]; line += LINE) {
        require(line[3] == ' ' && line[20] == ' ' && line[22] == ' ' && line[LINE - 1] == '\n');
        require(line[21] == 'y' || line[21] == 'n' || (line[21] == '.' && line[71] == ' '));
        require(line[71] == ' ' || (line[71] == '+' && line[70] != ' '));
        require(memchr(line, '\n', LINE) == line + LINE - 1);
    }
}

/* ── mappings */

#define MAPPINGS 0x1800f
#define CONVERSIONS 0x18001

static struct juzontefa_answer child(const uint8_t *sheet, size_t size, uint8_t *out, size_t room) {
    return juzontefa_get_child(sheet, size, place, out, room);
}

static struct juzontefa_answer integer(const uint8_t *sheet, size_t size, uint8_t *out, size_t room) {
    (void)sheet, (void)size;
    return juzontefa_from_integer_type(place, out, room);
}

static struct juzontefa_answer primitive(const uint8_t *sheet, size_t size, uint8_t *out, size_t room) {
    (void)sheet, (void)size;
    return juzontefa_from_primitive_type(place, out, room);
}

/* A mapping from sheet to sheet, never longer than the sheet: refused with `form`, 1, 2 or 3, exactly where plain form is; the answer, which then ends
 * at end[0]. */
static struct juzontefa_answer map(call *call, const uint8_t *sheet, size_t size, uint64_t form) {
    struct juzontefa_answer answer = ask_all(call, call == juzontefa_to_storage ? PLAINS : MAPPINGS, sheet, size, size);
    require(form != 0 ? answer.number == form : answer.number == 0 || answer.number == 15);
    ask(call, MAPPINGS, sheet, size, answer.length);
    memcpy(end[0] - answer.length, end[4] - answer.length, answer.length);
    return answer;
}

/* The type that a mapping changed is not changed a second time. */
static void changes(call *call, const uint8_t *sheet, size_t size, uint64_t form) {
    struct juzontefa_answer answer = map(call, sheet, size, form);
    if (answer.number != 0) return;
    const uint8_t *changed = end[0] - answer.length;
    struct juzontefa_answer again = ask(call, 1, changed, answer.length, answer.length);
    require(again.length == answer.length && memcmp(end[4] - again.length, changed, again.length) == 0);
}

/* The first line of a type that is picked is bare, so that no call reads it. */
static void picks(call *call, const uint8_t *sheet, size_t size, uint64_t form) {
    struct juzontefa_answer answer = map(call, sheet, size, form);
    if (answer.number == 0) require(ask(juzontefa_to_storage, MAPPINGS, end[0] - answer.length, answer.length, size).number == 2);
}

static void mappings(const uint8_t *sheet, size_t size, uint64_t form) {
    changes(juzontefa_underlying_physical_type, sheet, size, form);
    changes(juzontefa_to_storage, sheet, size, form);
    changes(juzontefa_to_storage_recursive, sheet, size, form);
    picks(juzontefa_inner_dtype, sheet, size, form);
    for (place = 0; place < 3; place++) picks(child, sheet, size, form);
    place = UINT64_MAX - size % 2;
    require(map(child, sheet, size, form).number != 0);
    struct juzontefa_places p = juzontefa_to_physical_type(sheet, size);
    require(form != 0 ? p.number == form : p.number == 0 || p.number == 15);
    require(p.number != 0 ? p.place == 0 && p.inner == 0 : p.place <= 16 && p.inner <= 16);
    struct juzontefa_yes_no nested = juzontefa_is_nested(sheet, size), dictionary = juzontefa_contains_dictionary(sheet, size);
    require(nested.number == form && nested.answer <= (form == 0));
    require(dictionary.number == form && dictionary.answer <= nested.answer);
    place = size % 3 == 0 ? UINT64_MAX - size : size % 32;
    require((ask_all(integer, CONVERSIONS, sheet, size, JUZONTEFA_CONVERTED_ROOM).number == 0) == (place < 10));
    require((ask_all(primitive, CONVERSIONS, sheet, size, JUZONTEFA_CONVERTED_ROOM).number == 0) == (place < 17));
}

/* An export has the same number and length in the other order. */
static struct juzontefa_answer exports(const uint8_t *sheet, size_t size) {
    struct juzontefa_answer exported = ask_all(export, EXPORTS, sheet, size, JUZONTEFA_EXPORT_ROOM(size));
    comes_again(export, juzontefa_export, sheet, size, exported);
    uint64_t asked = big;
    big = asked == 0;
    struct juzontefa_answer other = ask(export, EXPORTS, sheet, size, exported.length);
    big = asked;
    require(other.number == exported.number && other.length == exported.length);
    return exported;
}

/* Each line that is visited becomes one, but for extensions; and every line is visited but the values below dictionaries under extensions. */
static void measured(const uint8_t *sheet, size_t size, struct juzontefa_answer exported) {
    struct juzontefa_measure m = measures(juzontefa_measure_export, sheet, size, exported);
    if (m.number != 0) return;
    ask(export, 1, sheet, size, m.length);
    size_t written = lines_with("", end[4] - m.length, m.length) - 1;
    require(m.lines >= written && m.lines - written <= lines_with("37 ", sheet, size));
    if (lines_with("32 ", sheet, size) == 0) require(m.lines == lines_with("", sheet, size) - 1);
}

static void calls(const uint8_t *sheet, size_t size) {
    struct juzontefa_answer exported = exports(sheet, size);
    measured(sheet, size, exported);
    struct juzontefa_answer plain = ask_all(juzontefa_plain_form, PLAINS, sheet, size, JUZONTEFA_PLAIN_FORM_ROOM(size));
    if (exported.number <= 3) require(exported.number == plain.number);
    else require(plain.number == 0);
    trips(sheet, size, exported, plain);
    strict_trips(sheet, size, strict_exports(sheet, size, exported), plain);
    pages(sheet, size, plain.number);
    mappings(sheet, size, plain.number);
}

#endif

int LLVMFuzzerTestOneInput(const uint8_t *data, size_t size) {
    if (sheet_end == NULL) {
        sheet_end = fenced(SHEET);
        for (int i = 0; i < 5; i++) end[i] = fenced(ROOM);
    }
    big = 0;
    if (size > 0) {
        size--;
        big = (uint64_t)data[size] << 8 * (size % 8); /* at each of a number's places */
    }
    if (size > SHEET) return 0;
    uint8_t *sheet = sheet_end - size;
    memcpy(sheet, data, size);
    calls(sheet, size);
    require(memcmp(sheet, data, size) == 0);
    return 0;
}
