/* Where memory comes from while a call runs. */
#ifndef GVP_MEMORY_H
#define GVP_MEMORY_H

#include "gotsavena.h"

extern const gv_allocator gvp_of_c;

/* By thread, for the length of a call: the library below knows one allocator alone, so that it needs no other type for a box of another's
 * memory. */
const gv_allocator *gvp_take_from(const gv_allocator *allocator);

#endif
