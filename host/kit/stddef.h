/* The C library's declarations that the host program uses. The kit's compiler comes without the C
 * library's headers; where it builds the host, these stand in for them. x86-64 Linux with glibc. */
#pragma once
typedef __SIZE_TYPE__ size_t;
#define NULL ((void *)0)
