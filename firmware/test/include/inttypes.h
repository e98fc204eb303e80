/* How a number of a known size is printed. */
#ifndef INTTYPES_H
#define INTTYPES_H

#include <stdint.h>

#define PRIu32 __UINT32_FMTu__
#define PRIu64 __UINT64_FMTu__

#endif
