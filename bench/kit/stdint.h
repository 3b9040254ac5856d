/* For the kit's clang, which comes without headers: what include/bezinkol.h asks for. */
#pragma once
typedef __UINT8_TYPE__ uint8_t;
typedef __UINT32_TYPE__ uint32_t;
typedef __UINT64_TYPE__ uint64_t;
typedef __INT64_TYPE__ int64_t;
