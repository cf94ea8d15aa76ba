/* The bound of memory of a thread, for the calls that set one of their own. */
#ifndef YAML_C_HEAP_H
#define YAML_C_HEAP_H
#include <stddef.h>

/* Sets the bound as yamlcanon_budget does, and gives the one before. */
size_t yaml_c_bound(size_t bytes);

/* Puts a bound back; the peak stays. */
void yaml_c_unbound(size_t bytes);

#endif
