#ifndef BOARD_INTTYPES_H
#define BOARD_INTTYPES_H
#include <stdint.h>
#define PRIu32 __UINT32_FMTu__
#define PRIx32 __UINT32_FMTx__
#define PRIu64 __UINT64_FMTu__
#endif
