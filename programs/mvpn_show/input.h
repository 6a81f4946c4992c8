/* The octets that are shown, from a file or from standard input, as they are or in hexadecimal. */
#ifndef INPUT_H
#define INPUT_H

#include "octets.h"

#include <stdbool.h>

/* Reads all of it; "-" is standard input. Whether it could be read; where not, standard error has been told why. The octets are the
 * caller's to free. */
bool read_input(const char *name, bool in_hexadecimal, uint8_t **content, size_t *size);

#endif
