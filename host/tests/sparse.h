/* Guest memory of any length. */
#ifndef SPARSE_H
#define SPARSE_H

#include <stddef.h>
#include <stdint.h>

/* So many bytes, all zero, of which only pages that are written take room; NULL if none is asked for. Ends the program if the
   system does not give them. */
uint8_t *sparse(size_t length);

#endif
