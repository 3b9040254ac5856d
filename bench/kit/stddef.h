/* For the kit's clang, which comes without headers: what include/bezinkol.h asks for. */
#pragma once
typedef __SIZE_TYPE__ size_t;
#define NULL ((void *)0)
