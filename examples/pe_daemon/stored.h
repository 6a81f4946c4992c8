/* Routes that are kept in a file from one start of the program to the next, with their marks: as many tables of 64 places as they need,
 * one straight behind another. */
#ifndef STORED_H
#define STORED_H

#include "vrf.h"

/* Reads the routes of a family back from its file, where it has one; what is damaged is salvaged. Whether the file could be read; where
 * not, standard error has been told why. */
bool read_back(customer_vrf *vrf, uint16_t afi);

/* Puts the routes of a family into its file, where it has one. Whether it was done, likewise. */
bool keep_routes(customer_vrf *vrf, uint16_t afi);

#endif
