/* ArrowSchema structs and schema sheets, both ways: what stands between a program that has schemas by the Arrow C data interface and the calls of
 * juzontefa.h. This header and juzontefa_arrow.c are all of it; C11, the C library and, for the last call, the archive; callable from C++. Nothing is kept between calls, and calls may
 * run at the same time on different schemas.
 *
 * The numbers are those of enum juzontefa_refusal, with one of its own where memory cannot be had. */
#ifndef JUZONTEFA_ARROW_H
#define JUZONTEFA_ARROW_H

#include <stddef.h>
#include <stdint.h>

#include "juzontefa.h"

#ifdef __cplusplus
extern "C" {
#endif

/* The schema half of the Arrow C data interface, as its document gives it, under its guard: a program may have it from elsewhere. */
#ifndef ARROW_C_DATA_INTERFACE
#define ARROW_C_DATA_INTERFACE

#define ARROW_FLAG_DICTIONARY_ORDERED 1
#define ARROW_FLAG_NULLABLE 2
#define ARROW_FLAG_MAP_KEYS_SORTED 4

struct ArrowSchema {
    const char *format;
    const char *name;
    const char *metadata;
    int64_t flags;
    int64_t n_children;
    struct ArrowSchema **children;
    struct ArrowSchema *dictionary;
    void (*release)(struct ArrowSchema *);
    void *private_data;
};

#endif

/* The byte order of this machine, which the metadata of its structs has; defined where the compiler tells it, as gcc and clang do. The calls below do not
 * need it, since they read and write a struct in this order on any machine. It is for a host that copies a block's bytes into a sheet by itself, and then has
 * it imported under this order. */
#ifdef __BYTE_ORDER__
#define JUZONTEFA_NATIVE_ORDER (__BYTE_ORDER__ == __ORDER_BIG_ENDIAN__ ? JUZONTEFA_BIG_ENDIAN : JUZONTEFA_LITTLE_ENDIAN)
#endif

/* Memory could not be had. It is no refusal of the sheet's, and no number of the library's. */
#define JUZONTEFA_NO_MEMORY 255

struct juzontefa_walked {
    uint64_t number; /* 0, or why there is no sheet */
    size_t length;   /* of the sheet that stands in the buffer; 0 where there is none */
    size_t needed;   /* of the sheet, whether it fits or not: with number 0 it is `length`, with 16 what the buffer would have to hold; else 0 */
};

/* Writes the schema sheet of `schema` into the `out_len` bytes at `out`. Bytes past the sheet keep what they held; where there is no sheet, the whole
 * buffer is zeros. Numbers:
 *    1  the sheet would have over 65,535 bytes; found before more than that is read
 *    2  a struct that cannot be a line, or a line that is missing: a null or released struct (the first, a child, a dictionary), fewer than 0
 *       children, children without an array
 *    3  over 32 levels
 *   16  the sheet is longer than the buffer
 * 1 is told before 2, 2 before 3. What stands deeper than 32 levels is not looked at, so that a struct which is its own child is 3, and takes no more
 * work than a sheet of 65,535 bytes.
 * What is trusted, since a pointer does not tell it: that a format or name ends in byte 00, that `children` has `n_children` pointers, and that a
 * metadata block has the bytes that its own count and lengths announce. It is read by them, up to the 32,767 bytes that a sheet can hold of it and
 * up to a negative length, which import refuses with 11. Its count and lengths are of this machine's byte order; in the sheet they are little-endian, on
 * a machine of either order, as `juzontefa_import` reads them. */
struct juzontefa_walked juzontefa_schema_to_sheet(const struct ArrowSchema *schema, uint8_t *out, size_t out_len);

/* The same with the sheet's metadata in the order that the caller says: little-endian if `big` is 0, else big-endian. The struct's is this machine's as
 * ever. The sheet goes to `juzontefa_import_with_order` under the same order. With 0 it is the call above. */
struct juzontefa_walked juzontefa_schema_to_sheet_with_order(const struct ArrowSchema *schema, uint64_t big, uint8_t *out, size_t out_len);

/* Makes the ArrowSchema of a schema sheet, such as `juzontefa_export` writes. With number 0 `*schema` is its owner's to release, by its callback; else
 * it is a released struct, all zeros, and no memory is held. What `*schema` held before is not looked at. Numbers:
 *    1  over 65,535 bytes, wrong heading, or no byte 10 after it
 *    2  a line breaks its rules, or lines are missing or left over
 *    3  over 32 levels
 *    4  null format, which the interface does not have
 *   11  metadata cut short or a negative length: a reader of the struct would read past it
 *  255  JUZONTEFA_NO_MEMORY
 * 1, 2 and 3 are tried over the whole sheet in that order; then 4 and 11 line by line. Bytes of a block past its last pair are left out; a null name stays
 * null. A child or a dictionary may be moved out of its parent, as the interface describes, and lives on by itself. The sheet's metadata is little-endian, and
 * the struct's of this machine's order. */
uint64_t juzontefa_sheet_to_schema(const uint8_t *sheet, size_t sheet_len, struct ArrowSchema *schema);

/* The same of a sheet whose metadata has the order that the caller says, `big` as above, such as `juzontefa_export_with_order` writes. With 0 it is the call
 * above. A block of the other order mostly gets 11, but not always, as with import. */
uint64_t juzontefa_sheet_to_schema_with_order(const uint8_t *sheet, size_t sheet_len, uint64_t big, struct ArrowSchema *schema);

/* Makes the ArrowSchema of a field sheet by `juzontefa_strict_export`, so that whoever walks and imports the struct gets the field's plain form. `*schema` is
 * its owner's, or a released struct, as above. Numbers:
 *    1, 2, 3, 12, 13, 14, 17, 18   of the strict export
 *    1   also if the schema sheet that it would write has over 65,535 bytes
 *  255   JUZONTEFA_NO_MEMORY, also where there is none for that sheet, before it is tried */
uint64_t juzontefa_strict_field_to_schema(const uint8_t *field, size_t field_len, struct ArrowSchema *schema);

#ifdef __cplusplus
}
#endif

#endif
