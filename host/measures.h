/* The measures of import and export, tried by the C host. */
#ifndef MEASURES_H
#define MEASURES_H

void measures(void);

#endif
