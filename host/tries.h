/* What the C host tries, counted: a call on a sheet with a buffer, and what is to come of it. */
#ifndef TRIES_H
#define TRIES_H

#include <stddef.h>
#include <stdint.h>

#include "../include/juzontefa.h"

#define SCHEMA "format name flags metadata children dictionary\n"
#define FIELD "kind p q text more name nullable pairs children\n"
#define LONGEST 65535
#define ROOM (1u << 19)

typedef struct juzontefa_answer call(const uint8_t *sheet, size_t sheet_len, uint8_t *out, size_t out_len);
/* A round trip, its four buffers and their lengths in the order of the steps. */
typedef struct juzontefa_trip trip(const uint8_t *sheet, size_t sheet_len, uint8_t *const out[4], const size_t room[4]);

/* A sheet to hand in, and one that is to come. */
extern uint8_t sheet[70000];
extern char expected[ROOM];
extern int tried, wrong;
/* The lengths of a round trip's buffers that hold any answer tried, and of none. */
extern const size_t wide[4], none[4];

void count(int ok, const char *what, uint64_t first, uint64_t second);
int holds(const uint8_t *buffer, size_t room, const char *answer);
void expect(call *call, const char *what, const uint8_t *in, size_t in_len, size_t room, uint64_t number, const char *answer);
void text(call *call, const char *what, const char *in, uint64_t number);
void answered(call *call, const char *what, const uint8_t *in, size_t in_len, const char *answer);
size_t many(char *to, const char *line, int times, const char *leaf);
void expect_trip(trip *trip, const char *what, const char *in, const size_t room[4], uint64_t answer, uint64_t number, const char *const sheets[4]);
void comes_back(trip *trip, const char *what, const char *in, const char *const sheets[4]);
void broken_sheets(call *call, const char *heading, const char *line, const char *leaf);

#endif
