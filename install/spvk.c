/* The calls of include/spvk.h as functions of the shared library, by which dlsym and other languages find them.
 *
 * There they are inline functions of each program that includes the header. Here the same lines are read without these
 * two words, which makes them functions of this file. install/spvk.map says which of them the library shows.
 */
#include <stdbool.h>
#include <stddef.h>
#include <stdint.h>

#define static
#define inline
#include "../include/spvk.h"
