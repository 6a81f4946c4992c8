/* Whole files. */
#ifndef FILES_H
#define FILES_H

#include <stdbool.h>
#include <stddef.h>
#include <stdint.h>
#include <stdio.h>

/* Reads what remains of a file into memory that is the caller's to free, also where it could not be read to its end. Whether it was;
 * where not, standard error has been told why. */
bool read_whole(FILE *file, const char *name, uint8_t **content, size_t *size);

/* Puts these octets in the place of what the file has. Whether it was done; where not, standard error has been told why, and the file is
 * as it was. */
bool replace_file(const char *name, const uint8_t *content, size_t size);

#endif
