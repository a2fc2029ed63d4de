#pragma once
typedef __UINT8_TYPE__ uint8_t;
typedef __UINT32_TYPE__ uint32_t;
typedef __UINT64_TYPE__ uint64_t;
typedef __INT64_TYPE__ int64_t;
#define INT64_MAX 9223372036854775807
#define UINT32_MAX 4294967295u
#define UINT64_MAX 18446744073709551615u
#define SIZE_MAX 18446744073709551615u
