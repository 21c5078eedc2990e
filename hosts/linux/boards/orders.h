/* The orders on standard input, a line each. */
#ifndef ORDERS_H
#define ORDERS_H

#include "house.h"

/* Reads what there is on the input, and does the orders that are complete. */
void orders_read(struct house *house);

#endif
