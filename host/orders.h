/* Metadata in both byte orders, tried by the C host. */
#ifndef ORDERS_H
#define ORDERS_H

void orders(void);

#endif
