/* Whether a text is well-formed XML, of the small part that charts use: elements, attributes, text, five entities. */
#ifndef XML_H
#define XML_H

#include <stdbool.h>
#include <stddef.h>

bool xml_is_well_formed(const char *bytes, size_t length);

#endif
