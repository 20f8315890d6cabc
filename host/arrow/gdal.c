/* Schemas that nobody here made: GDAL writes a CSV file, a GeoJSON file, a GeoPackage and a shapefile with several types of fields, and hands out the
 * schema of each layer through its Arrow stream. Each is walked to a sheet, imported, exported, made into structs again, and compared with GDAL's struct by
 * struct, up to what plain form says.
 *
 *   gdal FOLDER    where the files are written
 *
 * Prints the schemas' structs and one line of figures; the status is 0 only if all came back. */
#include <stdio.h>
#include <stdlib.h>
#include <string.h>

#include <cpl_conv.h>
#include <cpl_string.h>
#include <gdal.h>
#include <ogr_api.h>
#include <ogr_recordbatch.h>
#include <ogr_srs_api.h>

/* GDAL's header has the struct too, and versions before 3.7 do not say so by the guard that the interface's document gives. */
#ifndef ARROW_C_DATA_INTERFACE
#define ARROW_C_DATA_INTERFACE
#endif
#include "juzontefa_arrow.h"

#define LIMIT 65535

static int schemas, structs, wrong;

static void fail(const char *layer, const char *what)
{
    wrong++;
    printf("wrong: %s: %s\n", layer, what);
}

/* ── comparing two structs */

#define RESERVED_NAME "ARROW:extension:name"
#define RESERVED_METADATA "ARROW:extension:metadata"

struct pair {
    const char *key, *value;
    int32_t key_length, value_length;
};

static const char *text_at(const char *at, const char **text, int32_t *length)
{
    memcpy(length, at, 4);
    *text = at + 4;
    return at + 4 + *length;
}

static int is_key(const struct pair *p, const char *key)
{
    return p->key_length == (int32_t)strlen(key) && memcmp(p->key, key, (size_t)p->key_length) == 0;
}

/* The pairs of a block, each key once with its last value; the extension's metadata only beside its name. How many there are. */
static int pairs_of(const char *block, struct pair *pairs, int room)
{
    int32_t left;
    int count = 0, named = 0;
    if (!block)
        return 0;
    memcpy(&left, block, 4);
    for (const char *at = block + 4; left > 0; left--) {
        struct pair p;
        at = text_at(at, &p.key, &p.key_length);
        at = text_at(at, &p.value, &p.value_length);
        int place = 0;
        while (place < count && !(pairs[place].key_length == p.key_length && memcmp(pairs[place].key, p.key, (size_t)p.key_length) == 0))
            place++;
        if (place == room)
            return -1;
        pairs[place] = p;
        count += place == count;
        named |= is_key(&p, RESERVED_NAME);
    }
    for (int i = 0; i < count && !named; i++)
        if (is_key(&pairs[i], RESERVED_METADATA))
            pairs[i--] = pairs[--count];
    return count;
}

static int same_metadata(const char *a, const char *b)
{
    struct pair of_a[64], of_b[64];
    int count = pairs_of(a, of_a, 64), same = 0;
    if (count < 0 || pairs_of(b, of_b, 64) != count)
        return 0;
    for (int i = 0; i < count; i++)
        for (int j = 0; j < count; j++)
            same += of_a[i].key_length == of_b[j].key_length && memcmp(of_a[i].key, of_b[j].key, (size_t)of_a[i].key_length) == 0 &&
                    of_a[i].value_length == of_b[j].value_length && memcmp(of_a[i].value, of_b[j].value, (size_t)of_a[i].value_length) == 0;
    return same == count;
}

static int is_extension(const struct ArrowSchema *s)
{
    struct pair pairs[64];
    int count = pairs_of(s->metadata, pairs, 64);
    for (int i = 0; i < count; i++)
        if (is_key(&pairs[i], RESERVED_NAME))
            return 1;
    return 0;
}

/* The flags that a field keeps: nullable; ordered of a dictionary that stays one; sorted of a map. */
static int64_t kept_flags(const struct ArrowSchema *s, int dictionary)
{
    int64_t kept = ARROW_FLAG_NULLABLE;
    if (dictionary)
        kept |= ARROW_FLAG_DICTIONARY_ORDERED;
    if (!dictionary && strcmp(s->format, "+m") == 0)
        kept |= ARROW_FLAG_MAP_KEYS_SORTED;
    return s->flags & kept;
}

/* Whether `back` is what plain form leaves of `s`; `bare` where it is the values of a dictionary, which bear no name, flags or metadata of their own. A
 * dictionary directly under an extension is its index type alone. */
static int comes_back(const struct ArrowSchema *s, const struct ArrowSchema *back, int bare)
{
    structs++;
    int dictionary = s->dictionary && !(is_extension(s) && !bare);
    const char *name = bare || !s->name ? "" : s->name;
    if (strcmp(s->format, back->format) != 0 || strcmp(name, back->name) != 0 || !back->dictionary != !dictionary)
        return 0;
    if (bare ? back->flags != ARROW_FLAG_NULLABLE || back->metadata : back->flags != kept_flags(s, dictionary) || !same_metadata(s->metadata, back->metadata))
        return 0;
    if (dictionary)
        return back->n_children == 0 && comes_back(s->dictionary, back->dictionary, 1);
    if (s->dictionary)
        return back->n_children == 0;
    if (back->n_children != s->n_children)
        return 0;
    for (int64_t i = 0; i < s->n_children; i++)
        if (!comes_back(s->children[i], back->children[i], 0))
            return 0;
    return 1;
}

/* ── out and back */

static uint8_t sheet[LIMIT], field[JUZONTEFA_IMPORT_ROOM(LIMIT)], plain[JUZONTEFA_PLAIN_FORM_ROOM(LIMIT)], exported[JUZONTEFA_EXPORT_ROOM(LIMIT)],
    again[LIMIT];

static void show(const struct ArrowSchema *s, int level)
{
    printf("%*s%s %s%s\n", 2 * level, "", s->format, s->name ? s->name : "(null)", s->metadata ? " with metadata" : "");
    for (int64_t i = 0; i < s->n_children; i++)
        show(s->children[i], level + 1);
    if (s->dictionary)
        show(s->dictionary, level + 1);
}

static void out_and_back(const char *layer, const struct ArrowSchema *schema)
{
    schemas++;
    printf("%s\n", layer);
    show(schema, 1);
    struct juzontefa_walked w = juzontefa_schema_to_sheet(schema, sheet, sizeof sheet);
    if (w.number != 0) {
        fail(layer, "not walked");
        return;
    }
    struct juzontefa_answer f = juzontefa_import(sheet, w.length, field, sizeof field);
    struct juzontefa_answer p = juzontefa_plain_form(field, f.length, plain, sizeof plain);
    struct juzontefa_answer e = juzontefa_export(field, f.length, exported, sizeof exported);
    if (f.number != 0 || p.number != 0 || e.number != 0) {
        fail(layer, "refused");
        return;
    }
    if (p.length != f.length || memcmp(plain, field, f.length) != 0)
        fail(layer, "what was imported is not plain");
    struct ArrowSchema back;
    if (juzontefa_sheet_to_schema(exported, e.length, &back) != 0) {
        fail(layer, "no struct of the export");
        return;
    }
    if (!comes_back(schema, &back, 0))
        fail(layer, "a struct differs");
    w = juzontefa_schema_to_sheet(&back, again, sizeof again);
    if (w.number != 0 || w.length != e.length || memcmp(again, exported, e.length) != 0)
        fail(layer, "walked back, the sheet differs");
    back.release(&back);
}

static void layers(const char *path)
{
    static const char *const options[] = { "AUTODETECT_TYPE=YES", NULL }; /* of a CSV file, whose fields are texts otherwise */
    int csv = strstr(path, ".csv") != NULL;
    GDALDatasetH data = GDALOpenEx(path, GDAL_OF_VECTOR | GDAL_OF_READONLY, NULL, csv ? options : NULL, NULL);
    int count = data ? GDALDatasetGetLayerCount(data) : 0;
    if (count == 0)
        fail(path, "no layer");
    for (int i = 0; i < count; i++) {
        struct ArrowArrayStream stream;
        struct ArrowSchema schema;
        memset(&stream, 0, sizeof stream);
        if (!OGR_L_GetArrowStream(GDALDatasetGetLayer(data, i), &stream, NULL) || stream.get_schema(&stream, &schema) != 0) {
            fail(path, "no Arrow stream");
            continue;
        }
        out_and_back(path, &schema);
        schema.release(&schema);
        stream.release(&stream);
    }
    if (data)
        GDALClose(data);
}

/* ── the files */

static void text_file(const char *path, const char *text)
{
    FILE *file = fopen(path, "wb");
    if (!file || fputs(text, file) < 0 || fclose(file) != 0)
        fail(path, "not written");
}

static void add_field(OGRLayerH layer, const char *name, OGRFieldType type, OGRFieldSubType subtype, const char *domain, int required)
{
    OGRFieldDefnH definition = OGR_Fld_Create(name, type);
    OGR_Fld_SetSubType(definition, subtype);
    OGR_Fld_SetNullable(definition, !required);
    if (domain)
        OGR_Fld_SetDomainName(definition, domain);
    if (OGR_L_CreateField(layer, definition, TRUE) != OGRERR_NONE)
        fail(name, "no such field");
    OGR_Fld_Destroy(definition);
}

/* A layer of points with fields of many types, by the driver of that name. */
static void made(const char *driver, const char *path, int rich)
{
    GDALDriverH by = GDALGetDriverByName(driver);
    GDALDatasetH data = by ? GDALCreate(by, path, 0, 0, 0, GDT_Unknown, NULL) : NULL;
    if (!data) {
        fail(path, "no driver, or not created");
        return;
    }
    OGRSpatialReferenceH place = OSRNewSpatialReference(NULL);
    OSRImportFromEPSG(place, 4326);
    OGRLayerH layer = GDALDatasetCreateLayer(data, "sweep", place, wkbPoint, NULL);
    add_field(layer, "amplitude", OFTReal, OFSTNone, NULL, 0);
    add_field(layer, "bin", OFTInteger, OFSTNone, NULL, 0);
    add_field(layer, "count", OFTInteger64, OFSTNone, NULL, 0);
    add_field(layer, "label", OFTString, OFSTNone, NULL, 0);
    add_field(layer, "taken", OFTDate, OFSTNone, NULL, 0);
    if (rich) {
        OGRCodedValue bands[] = { { CPLStrdup("0"), CPLStrdup("low") }, { CPLStrdup("1"), CPLStrdup("high") }, { NULL, NULL } };
        OGRFieldDomainH domain = OGR_CodedFldDomain_Create("bands", "bands of a sweep", OFTInteger, OFSTNone, bands);
        char *reason = NULL;
        if (!GDALDatasetAddFieldDomain(data, domain, &reason))
            fail(path, reason ? reason : "no domain");
        CPLFree(reason);
        OGR_FldDomain_Destroy(domain);
        for (int i = 0; i < 2; i++) {
            CPLFree(bands[i].pszCode);
            CPLFree(bands[i].pszValue);
        }
        add_field(layer, "band", OFTInteger, OFSTNone, "bands", 0);
        add_field(layer, "at", OFTDateTime, OFSTNone, NULL, 0);
        add_field(layer, "trace", OFTBinary, OFSTNone, NULL, 0);
        add_field(layer, "valid", OFTInteger, OFSTBoolean, NULL, 1);
        add_field(layer, "short", OFTInteger, OFSTInt16, NULL, 0);
        add_field(layer, "single", OFTReal, OFSTFloat32, NULL, 0);
    }
    OSRDestroySpatialReference(place);
    GDALClose(data);
}

int main(int count, char **words)
{
    char path[4096];
    if (count != 2) {
        fprintf(stderr, "usage: gdal FOLDER\n");
        return 2;
    }
    GDALAllRegister();
    snprintf(path, sizeof path, "%s/sweep.csv", words[1]);
    text_file(path, "bin,amplitude,label,taken\n1,-31.5,peak,2026/11/16\n2,-31.5,peak,2026/11/16\n");
    layers(path);
    snprintf(path, sizeof path, "%s/sweep.geojson", words[1]);
    text_file(path, "{\"type\":\"FeatureCollection\",\"features\":[{\"type\":\"Feature\",\"properties\":{\"bin\":1,\"amplitude\":-31.5,\"label\":\"peak\","
                    "\"taken\":\"2026-11-16T10:00:00Z\",\"stops\":[1,2,3],\"levels\":[-31.5,-31.5],\"marks\":[\"a\",\"b\"],\"valid\":true,\"large\":9007199254740993},"
                    "\"geometry\":{\"type\":\"Point\",\"coordinates\":[8.5,47.4]}}]}\n");
    layers(path);
    snprintf(path, sizeof path, "%s/sweep.gpkg", words[1]);
    made("GPKG", path, 1);
    layers(path);
    snprintf(path, sizeof path, "%s/sweep.shp", words[1]);
    made("ESRI Shapefile", path, 0);
    layers(path);
    GDALDestroyDriverManager();
    printf("%d schemas of GDAL out and back, %d structs compared, %d wrong\n", schemas, structs, wrong);
    return wrong == 0 ? EXIT_SUCCESS : EXIT_FAILURE;
}
