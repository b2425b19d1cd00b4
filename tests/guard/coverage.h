/* Which blocks of the library were reached. Only an archive that was compiled with counters (tests/guard/fuzz makes one) has any. */
#ifndef COVERAGE_H
#define COVERAGE_H

#include <stddef.h>
#include <stdio.h>

/* Blocks with a counter; 0 in the archive that is delivered. */
size_t coverage_blocks(void);

/* Blocks reached since the program began, as far as coverage_look saw them. */
size_t coverage_reached(void);

/* Sets the counters to 0, before a turn. */
void coverage_clear(void);

/* After a turn: how many blocks were reached for the first time, or more often in one turn than before (in steps of about two). */
size_t coverage_look(void);

/* Writes, for each block, its place in the program and 1 if it was reached. */
void coverage_list(FILE *to);

#endif
