/* Strict export and the strict round trip, tried by the C host. */
#ifndef STRICT_H
#define STRICT_H

void strict_exports(void);

#endif
