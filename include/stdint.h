/* The names of C99 7.18 as the words of the profile, for hlsc. They are macros, since the profile has no typedef;
   int8_t and so on have just so many bits, two's complement, as 7.18.1.1 asks, and int_fast16_t and its kin have the
   widths that glibc gives them on x86-64. */
#ifndef HLSC_STDINT_H
#define HLSC_STDINT_H
#define int8_t signed char
#define int16_t short
#define int32_t int
#define int64_t long
#define uint8_t unsigned char
#define uint16_t unsigned short
#define uint32_t unsigned int
#define uint64_t unsigned long
#define int_least8_t signed char
#define int_least16_t short
#define int_least32_t int
#define int_least64_t long
#define uint_least8_t unsigned char
#define uint_least16_t unsigned short
#define uint_least32_t unsigned int
#define uint_least64_t unsigned long
#define int_fast8_t signed char
#define int_fast16_t long
#define int_fast32_t long
#define int_fast64_t long
#define uint_fast8_t unsigned char
#define uint_fast16_t unsigned long
#define uint_fast32_t unsigned long
#define uint_fast64_t unsigned long
#define intptr_t long
#define uintptr_t unsigned long
#define intmax_t long
#define uintmax_t unsigned long
#define INT8_MIN (-128)
#define INT16_MIN (-32768)
#define INT32_MIN (-2147483647 - 1)
#define INT64_MIN (-9223372036854775807L - 1)
#define INT8_MAX 127
#define INT16_MAX 32767
#define INT32_MAX 2147483647
#define INT64_MAX 9223372036854775807L
#define UINT8_MAX 255
#define UINT16_MAX 65535
#define UINT32_MAX 4294967295U
#define UINT64_MAX 18446744073709551615UL
#define INTPTR_MIN INT64_MIN
#define INTPTR_MAX INT64_MAX
#define UINTPTR_MAX UINT64_MAX
#define INTMAX_MIN INT64_MIN
#define INTMAX_MAX INT64_MAX
#define UINTMAX_MAX UINT64_MAX
#define SIZE_MAX UINT64_MAX
#define INT8_C(n) n
#define INT16_C(n) n
#define INT32_C(n) n
#define INT64_C(n) n##L
#define UINT8_C(n) n
#define UINT16_C(n) n
#define UINT32_C(n) n##U
#define UINT64_C(n) n##UL
#define INTMAX_C(n) n##L
#define UINTMAX_C(n) n##UL
#endif
