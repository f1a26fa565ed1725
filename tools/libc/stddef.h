#ifndef LIBC_STDDEF
#define LIBC_STDDEF
typedef __SIZE_TYPE__ size_t;
#define NULL ((void *)0)
#endif
