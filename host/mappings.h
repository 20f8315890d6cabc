/* The mappings and the two conversions, tried by the C host. */
#ifndef MAPPINGS_H
#define MAPPINGS_H

/* Tries them on every kind of the table in the file, host/kinds; a table that cannot be read counts as wrong. */
void mappings(const char *kinds);

#endif
