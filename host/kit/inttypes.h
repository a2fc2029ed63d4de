#pragma once
#include <stdint.h>
#define PRIu32 "u"
#define PRId64 "ld"
