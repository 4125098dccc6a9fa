/* Of x86-64, for a machine without its C headers: see link.sh. */
#ifndef KEP_STDDEF_H
#define KEP_STDDEF_H

typedef __SIZE_TYPE__ size_t;
typedef __PTRDIFF_TYPE__ ptrdiff_t;
#define NULL ((void *)0)

#endif
