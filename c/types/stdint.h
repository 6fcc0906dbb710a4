/* For a compiler that brings no headers, as the kit's: what include/orbelundri.h takes from stdint.h. */
#ifndef C_TYPES_STDINT_H
#define C_TYPES_STDINT_H

typedef __UINT8_TYPE__ uint8_t;
typedef __UINT16_TYPE__ uint16_t;
typedef __UINT32_TYPE__ uint32_t;
typedef __UINT64_TYPE__ uint64_t;
typedef __INT64_TYPE__ int64_t;
#define UINT64_MAX __UINT64_MAX__

#endif
