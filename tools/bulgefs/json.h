/* json.h - JSON of an entry. */
#ifndef BULGEFS_JSON_H
#define BULGEFS_JSON_H

#include "tool.h"

/* An object with all fields of an entry; times are milliseconds. */
void json_entry(FILE *out, const char *path, const entry *e);

#endif
