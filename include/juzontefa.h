/* Schemas over the Arrow C data interface, as sheets of bytes.
 *
 * Every call takes any bytes of any length and returns; it allocates nothing and keeps nothing between calls. `memcpy` and `memset`, as C has
 * them, are the host's to have: the library calls them and does not bring them. Besides it needs stack (JUZONTEFA_STACK) and nothing else. It
 * reads `sheet_len` bytes at `sheet`, which it does not change, and writes within the bytes of the buffers, such as the `out_len` bytes at `out`;
 * sheet and buffers must not overlap. A pointer may be null if its length is 0: an empty sheet, or a buffer without room. Calls may run at the
 * same time on different buffers.
 *
 * A schema sheet goes to import and its measure; all other calls read a field sheet, but for the two conversions, which take a place in an enumeration.
 *
 * The answer's number is 0 for success, or says why there is none and who is turned back (enum juzontefa_refusal).
 * Import gives 1 to 11 and 16, export 1, 2, 3, 12, 13, 14 and 16, under either byte order, and their measures the same without 16; strict export those
 * of export, 17 and 18; plain form, the page and `to_storage` 1, 2, 3 and 16; `underlying_physical_type`, `to_storage_recursive`, `inner_dtype` and `get_child` 1, 2, 3, 15 and 16;
 * `to_physical_type` 1, 2, 3 and 15; `is_nested` and `contains_dictionary` 1, 2 and 3; the two conversions 15 and 16. 1, 2 and 3 are tried over the whole
 * sheet, in that order, before all others; 16 comes last, though it is not the greatest number, and only if there is an answer and it is longer than the
 * buffer.
 * On success `length` bytes of the buffer are the answer, and the bytes past them keep what they held. On refusal `length` is 0 and
 * the whole buffer is zeros. Calls that answer numbers are lent no buffer; their numbers are 0 on refusal.
 */
#ifndef JUZONTEFA_H
#define JUZONTEFA_H

#include <stddef.h>
#include <stdint.h>

#ifdef __cplusplus
extern "C" {
#endif

/* Why a call refuses, by the names of the definitions (crates/sheets/specs/Refusal.antt). */
enum juzontefa_refusal {
    JUZONTEFA_ANSWERED = 0,
    /* the sheet's maker */
    JUZONTEFA_NOT_SHEET = 1, /* over 65,535 bytes, wrong heading, or no byte 10 after it */
    JUZONTEFA_BAD_LINES = 2, /* a line breaks its rules, or lines are missing or left over */
    JUZONTEFA_TOO_DEEP = 3,  /* over 32 levels */
    /* the schema's producer */
    JUZONTEFA_NULL_FORMAT = 4,
    JUZONTEFA_NOT_UTF8 = 5, /* format, name or metadata text not UTF-8 */
    JUZONTEFA_UNSUPPORTED_FORMAT = 6,
    JUZONTEFA_BAD_NUMBER = 7,   /* bad number in a format */
    JUZONTEFA_BAD_DECIMAL = 8,  /* decimal not 2 or 3 parts */
    JUZONTEFA_BAD_INDEX = 9,    /* dictionary index format outside `c C s S i I l L` */
    JUZONTEFA_NO_CHILD = 10,    /* needed child absent */
    JUZONTEFA_BAD_METADATA = 11, /* metadata cut short or a negative length */
    /* the field's owner */
    JUZONTEFA_NO_FORMAT = 12,    /* Time32 in micro- or nanoseconds, Time64 in seconds or milliseconds, MonthDayMillis, Unknown */
    JUZONTEFA_NO_UNION_IDS = 13, /* union whose ids are `-`, or `~` over no fields */
    JUZONTEFA_ZERO_BYTE = 14,    /* byte 00 in a line's name or timezone */
    JUZONTEFA_UNDEFINED_MAPPING = 15, /* mapping undefined there, no such child, or no such place to convert */
    /* the caller */
    JUZONTEFA_NO_ROOM = 16, /* the answer is longer than the buffer */
    /* the field's owner again, of strict export alone */
    JUZONTEFA_RESERVED_KEY = 17, /* `ARROW:extension:name` or `ARROW:extension:metadata` among the pairs of a line */
    JUZONTEFA_WIDE_INDEX = 18    /* a dictionary's index of 128 bits */
};

/* How long a buffer must be to hold every answer to a sheet of `n` bytes: with one so long 16 never comes, and no answer is longer (proved,
 * crates/rooms). A sheet of over 65,535 bytes is refused, so that it needs no more than one of 65,535. */
#define JUZONTEFA_LONGEST_SHEET 65535
#define JUZONTEFA_SHEET(n) ((size_t)(n) < JUZONTEFA_LONGEST_SHEET ? (size_t)(n) : (size_t)JUZONTEFA_LONGEST_SHEET)
#define JUZONTEFA_IMPORT_ROOM(n) (JUZONTEFA_SHEET(n) * 19 / 13)
#define JUZONTEFA_EXPORT_ROOM(n) (JUZONTEFA_SHEET(n) * 178 / 37)
#define JUZONTEFA_PLAIN_FORM_ROOM(n) (JUZONTEFA_SHEET(n) * 23 / 18)
#define JUZONTEFA_PAGE_ROOM(n) (JUZONTEFA_SHEET(n) * 73 / 18) /* a line of a field sheet has 18 bytes or more, of a page 73 */
#define JUZONTEFA_MAPPING_ROOM(n) JUZONTEFA_SHEET(n) /* of the five mappings that answer a sheet */
#define JUZONTEFA_CONVERTED_ROOM 69 /* of the two conversions: heading and line of Decimal256, `36 32 32 ~ ~ ~ ~ ~ 0` */

/* Bytes of stack to reserve for a call: what the greatest call used, a round trip's 65,664 bytes (measured by host/stack, x86-64; not proved), with
 * a margin of nearly a quarter. Import's greatest was 65,456, its measure's 65,440; of the others none used more than 24,144. */
#define JUZONTEFA_STACK 81920

/* The byte order of a metadata block's count and lengths, four bytes each: the least significant byte first, or the most significant. A struct in
 * memory has that of its machine. Nothing else in a sheet has one; import, the two exports, the measures and the round trips are the calls that meet it. A
 * caller may hand over any number: every one but 0 is big-endian. */
enum juzontefa_byte_order {
    JUZONTEFA_LITTLE_ENDIAN = 0,
    JUZONTEFA_BIG_ENDIAN = 1
};

/* By value, in two registers. */
struct juzontefa_answer {
    uint64_t number;
    uint64_t length;
};

/* The field sheet of a schema sheet whose metadata is little-endian. Ordered, nullable and sorted are the flags' bits 1, 2 and 4, of negative flags too;
 * all other bits are free for the producer, and dropped. The longest answer that was found has 95,756 bytes, for a struct of 5,036 leaves; the room for
 * the longest sheet is 95,781. */
struct juzontefa_answer juzontefa_import(const uint8_t *sheet, size_t sheet_len, uint8_t *out, size_t out_len);

/* The same with the order of all metadata blocks as the caller says: little-endian if `big` is 0, else big-endian. With 0 it is `juzontefa_import`, whose
 * numbers, room and stack it has under both. A sheet does not tell its order, so the caller must know it. For a block of the other order nothing is
 * promised: mostly it gets 11, but 128 pairs written big-endian have, read little-endian, a negative count, which stands for no pairs. */
struct juzontefa_answer juzontefa_import_with_order(const uint8_t *sheet, size_t sheet_len, uint64_t big, uint8_t *out, size_t out_len);

/* The schema sheet of a field sheet, with little-endian metadata. The longest answer that was found has 312,783 bytes, for a union without ids of 1,769
 * extensions; the room for the longest sheet is 315,276. What is longer than 65,535 bytes import refuses with 1. */
struct juzontefa_answer juzontefa_export(const uint8_t *sheet, size_t sheet_len, uint8_t *out, size_t out_len);

/* The same with metadata in the order that the caller says, `big` as above, which is to be its reader's. With 0 it is `juzontefa_export`. Under both a
 * field gets the same number and length, and the same bytes but for those of counts and lengths. */
struct juzontefa_answer juzontefa_export_with_order(const uint8_t *sheet, size_t sheet_len, uint64_t big, uint8_t *out, size_t out_len);

/* An export that is sure to return: what it writes imports, under the same order, to the field's plain form, so that only lengths are left to the caller:
 * a sheet of over 65,535 bytes cannot be handed in, and import's buffer may be short. `big` as above; there is no variant without it.
 * After 1, 2 and 3 and before all else every line of the field is tested, in the sheet's order, those too that export never visits, below a dictionary
 * directly under an extension: 17 if one of its keys is `ARROW:extension:name` or `ARROW:extension:metadata`, whole and in this case, whatever its value and
 * also where export would write over the pair; then 18 if it is a dictionary with an index of 128 bits, place 4 or 9 of `IntegerType`. The first line with
 * either decides. Int128 and UInt128 as types are no cause. Where neither is found the answer is that of `juzontefa_export_with_order`, 12, 13, 14 and 16
 * too, and in the same room. The export above, which takes such fields, gives 17 and 18 never. */
struct juzontefa_answer juzontefa_strict_export(const uint8_t *sheet, size_t sheet_len, uint64_t big, uint8_t *out, size_t out_len);

/* By value; three words, which C returns through memory of the caller's. */
struct juzontefa_measure {
    uint64_t number;
    uint64_t length; /* of what the conversion would write */
    uint64_t lines;  /* of the sheet handed in, those that the conversion would visit */
};

/* How much an import would write, for a host that reserves memory before it converts: nothing is written, and there is no buffer. The order is taken as by
 * `juzontefa_import_with_order`, and must be the one that is then imported under: in the other a sheet may have another length, or none.
 * `length` is exactly what import writes, its heading with it: the least buffer that is not given 16, and one byte fewer is given it. It may be over 65,535,
 * but is never over JUZONTEFA_IMPORT_ROOM of the sheet. `lines` counts the lines of the schema sheet that import visits: the first; of a list or map the
 * first child, of a struct or union every one; a dictionary's values. Children that import ignores do not count, with all below them: those of other formats,
 * of a line with a dictionary, and a list's further ones. An extension that metadata makes is one line here, and two in what is written.
 * What import refuses for another cause than 16 gets the same number, with both counts 0. */
struct juzontefa_measure juzontefa_measure_import(const uint8_t *sheet, size_t sheet_len, uint64_t big);

/* The same of an export, with the order as `juzontefa_export_with_order` takes it; it makes no difference to the answer. `lines` counts the lines of the
 * field sheet that export visits: extensions and their inner lines too, but not the values of a dictionary directly under an extension, or under several,
 * with all below them. The values of every other dictionary count. */
struct juzontefa_measure juzontefa_measure_export(const uint8_t *sheet, size_t sheet_len, uint64_t big);

/* The plain form of a field sheet, a field sheet again: what import of its export gives, where the field can be exported and has no reserved key
 * and no dictionary index of 128 bits. The longest answer that was found has 82,603 bytes, for a union without ids of 3,636 leaves; the room for the
 * longest sheet is 83,739. */
struct juzontefa_answer juzontefa_plain_form(const uint8_t *sheet, size_t sheet_len, uint8_t *out, size_t out_len);

/* The page of a field sheet, for people to read: one line of 73 bytes, the last of them a byte 10, for each line of the sheet below its heading, in the
 * sheet's order; the heading becomes none. A line has the level, right-justified in 3; a space; the kind's name as the Rust's `ArrowDataType` spells it,
 * left-justified in 16; a space; `y` for nullable, `n` for not, `.` for a bare line; a space; the name's first 24 bytes in hexadecimal, left-justified
 * in 48; and `+` if the name has more bytes than those, else a space. An empty name and a bare line show 48 spaces. A page has no byte 00, and none is
 * written behind it. 1, 2, 3 and 16 as ever: what cannot be exported has a page too, and 16 comes exactly if 73 bytes for each line are more than the
 * buffer has. The longest answer that was found has 265,501 bytes, for a struct of 3,636 leaves; the room for the longest sheet is 265,780. */
struct juzontefa_answer juzontefa_page(const uint8_t *sheet, size_t sheet_len, uint8_t *out, size_t out_len);

/* ── The mappings of a field's type, and the two conversions, by the names of the Rust. No answer of the five that read a field sheet and give one is
 * longer than the sheet. */

/* The field with its type replaced, its name, `nullable` and pairs as they were. Dates, times, timestamps, durations and decimals become the integers
 * that they are kept as, in lists and structs too; a dictionary becomes its index type, whatever its values are; an extension what its inner type
 * becomes. 15 for an interval in MonthDayNano or MonthDayMillis, Decimal256, a map or a union. */
struct juzontefa_answer juzontefa_underlying_physical_type(const uint8_t *sheet, size_t sheet_len, uint8_t *out, size_t out_len);

/* The field with the type inside its outermost extensions; the field itself where it is none. */
struct juzontefa_answer juzontefa_to_storage(const uint8_t *sheet, size_t sheet_len, uint8_t *out, size_t out_len);

/* The field without extensions, in lists, structs and the values of dictionaries too. 15 for a map or a union. */
struct juzontefa_answer juzontefa_to_storage_recursive(const uint8_t *sheet, size_t sheet_len, uint8_t *out, size_t out_len);

/* The type of a list's items, as a sheet whose first line is bare: name, `nullable` and pairs are `~`. 15 for other kinds, extensions among them.
 * (No call reads a sheet whose first line is bare.) */
struct juzontefa_answer juzontefa_inner_dtype(const uint8_t *sheet, size_t sheet_len, uint8_t *out, size_t out_len);

/* The type of the child at a place, from 0, of a list, map, struct or union, looked for inside extensions; as a sheet whose first line is bare. 15 if
 * there is none, and for a dictionary. */
struct juzontefa_answer juzontefa_get_child(const uint8_t *sheet, size_t sheet_len, uint64_t index, uint8_t *out, size_t out_len);

/* The type of a place in `IntegerType`, 0 to 9: Int8, Int16, Int32, Int64, Int128, UInt8, UInt16, UInt32, UInt64, UInt128; as a sheet whose one line is
 * bare. 15 for another place. */
struct juzontefa_answer juzontefa_from_integer_type(uint64_t place, uint8_t *out, size_t out_len);

/* The type of a place in `PrimitiveType`, 0 to 16: Int8, Int16, Int32, Int64, Int128, Int256, UInt8, UInt16, UInt32, UInt64, UInt128, Float16, Float32,
 * Float64, DaysMs, MonthDayNano, MonthDayMillis; as a sheet whose one line is bare. 15 for another place. */
struct juzontefa_answer juzontefa_from_primitive_type(uint64_t place, uint8_t *out, size_t out_len);

/* By value; three words, which C returns through memory of the caller's. */
struct juzontefa_places {
    uint64_t number;
    uint64_t place; /* in `PhysicalType`, 0 to 16: Null, Boolean, Primitive, Binary, FixedSizeBinary, LargeBinary, Utf8, LargeUtf8, List, FixedSizeList,
                       LargeList, Struct, Union, Map, Dictionary, BinaryView, Utf8View */
    uint64_t inner; /* of Primitive the place in `PrimitiveType`, of Dictionary that in `IntegerType`, else 0 */
};

/* The physical type of a field. 15 for Unknown, also inside extensions. */
struct juzontefa_places juzontefa_to_physical_type(const uint8_t *sheet, size_t sheet_len);

/* By value, in two registers. */
struct juzontefa_yes_no {
    uint64_t number;
    uint64_t answer; /* 1 for yes, 0 for no */
};

/* Whether a field's type is a list, struct, union, map, dictionary or extension. */
struct juzontefa_yes_no juzontefa_is_nested(const uint8_t *sheet, size_t sheet_len);

/* Whether a dictionary is in a field's type, at any depth. */
struct juzontefa_yes_no juzontefa_contains_dictionary(const uint8_t *sheet, size_t sheet_len);

/* ── Out and back */

/* What a round trip answers. */
enum juzontefa_trip_answer {
    JUZONTEFA_ALL_SAME = 0,       /* what was imported is the plain form, and the second export is the first */
    JUZONTEFA_EXPORT_REFUSED = 1, /* the export of the sheet is refused */
    JUZONTEFA_IMPORT_REFUSED = 2, /* the import of that export is refused */
    JUZONTEFA_PLAIN_REFUSED = 3,  /* the plain form of the sheet is refused */
    JUZONTEFA_AGAIN_REFUSED = 4,  /* the export of the plain form is refused */
    JUZONTEFA_IMPORT_DIFFERS = 5, /* what was imported is not the plain form */
    JUZONTEFA_AGAIN_DIFFERS = 6   /* it is, but the second export is not the first */
};

/* By value, in two registers. */
struct juzontefa_trip {
    uint64_t answer; /* of enum juzontefa_trip_answer */
    uint64_t number; /* the refusal's, where a step is refused, else 0 */
};

/* A field sheet taken out and back: its export is written into `exported`, the import of that into `imported`, the sheet's plain form into `plain`,
 * the export of the plain form into `again`; then they are compared. The first step that is refused ends it.
 * Where a step is refused, all four buffers are zeros, also those of the steps before it. Else each holds its sheet, and the bytes past it keep what
 * they held. The lengths are not told; no sheet has a byte 00, so that in a buffer that held zeros the sheet ends at the first, or with the buffer.
 * A field without a reserved key and without a dictionary index of 128 bits in any of its lines never gets 5 or 6. */
struct juzontefa_trip juzontefa_round_trip(const uint8_t *sheet, size_t sheet_len, uint8_t *exported, size_t exported_len, uint8_t *imported,
                                           size_t imported_len, uint8_t *plain, size_t plain_len, uint8_t *again, size_t again_len);

/* The same with both exports and the import under the order that the caller says, `big` as above. With 0 it is `juzontefa_round_trip`. That the fields
 * named above never get 5 or 6 holds under each order. */
struct juzontefa_trip juzontefa_round_trip_with_order(const uint8_t *sheet, size_t sheet_len, uint64_t big, uint8_t *exported, size_t exported_len,
                                                      uint8_t *imported, size_t imported_len, uint8_t *plain, size_t plain_len, uint8_t *again,
                                                      size_t again_len);

/* The same with both exports strict: a field with a reserved key or a dictionary index of 128 bits is refused at its export, with 17 or 18. So 5 and 6 never
 * come, whatever the field is; once its export is answered, only a sheet that is too long to be handed in (1) or for its buffer (16) is refused. */
struct juzontefa_trip juzontefa_strict_round_trip(const uint8_t *sheet, size_t sheet_len, uint64_t big, uint8_t *exported, size_t exported_len,
                                                  uint8_t *imported, size_t imported_len, uint8_t *plain, size_t plain_len, uint8_t *again, size_t again_len);

#ifdef __cplusplus
}
#endif

#endif
