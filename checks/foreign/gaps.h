/* The calls of examples/c/vmbus.h with a gap before each access: there the other end may act. */
#ifndef GAPS_H
#define GAPS_H
static void gap(void);
#define __atomic_load_n(p, o) (gap(), __atomic_load_n(p, o))
#define __atomic_store_n(p, v, o) (gap(), __atomic_store_n(p, v, o))
#define memcpy(a, b, n) (gap(), memcpy(a, b, n))
#include "vmbus.h"
#undef __atomic_load_n
#undef __atomic_store_n
#undef memcpy
#endif
