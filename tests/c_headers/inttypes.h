#pragma once
#include <stdint.h>
#define PRIu32 __UINT32_FMTu__
#define PRIx32 __UINT32_FMTx__
#define PRIu64 __UINT64_FMTu__
#define PRIx64 __UINT64_FMTx__
