/* malloc, calloc and realloc in which some calls fail. Link with -Wl,--wrap=malloc,--wrap=calloc,--wrap=realloc: then
 * what stands behind them is still the C library's, or valgrind's. */
#ifndef REFUSE_MALLOC_H
#define REFUSE_MALLOC_H

#include <stdbool.h>
#include <stddef.h>

/* Lets the call with this number fail, counted from 1 on; 0: none. */
void refuse_at(long call);

/* Lets all calls fail from now on. */
void refuse_all(void);

/* Whether a call failed since. */
bool was_refused(void);

#endif
