/* The same lines as JSON (RFC 8259): each line is an object. A field's member has its name in lower case, with an underscore for each
 * blank and hyphen. */
#ifndef JSON_H
#define JSON_H

#include "lines.h"

void json_line(const line *shown);
void json_explanation(const explanation *shown);

#endif
