#ifndef STDDEF_H
#define STDDEF_H
typedef __SIZE_TYPE__ size_t;
typedef struct {
    long long number;
    long double real;
} max_align_t;
#define NULL ((void *)0)
#endif
