/*
 * The units of a column: what its keyword QuantumUnits says, or else UNIT, if that is a String or an array of Strings. No command
 * shows them: hv list prints what it printed before there were keywords, and a unit is read with hv keywords.
 */
#ifndef UNITS_H
#define UNITS_H

#include "names.h"

struct units {
    uint64_t refusal; /* of the column's keyword set, else 0 */
    uint64_t count;
    char **texts; /* escaped */
};

/* Of the column at a position that table.dat has. To be freed with units_free. */
struct units units_of(struct bytes table, uint64_t position);
void units_free(struct units *units);

/* Nothing, or behind a space `unit "s"`, `units "m", "m", "m"` or `keywords refused 5`. */
void print_units(const struct units *units);

/* The fields "units" and "keywords_refusal". */
void json_units(const struct units *units);

#endif
