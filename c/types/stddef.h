/* For a compiler that brings no headers, as the kit's: what include/orbelundri.h takes from stddef.h. */
#ifndef C_TYPES_STDDEF_H
#define C_TYPES_STDDEF_H

typedef __SIZE_TYPE__ size_t;
#define NULL ((void *)0)

#endif
