/* The names of C99 7.17 for hlsc; NULL is a word of the profile. */
#ifndef HLSC_STDDEF_H
#define HLSC_STDDEF_H
#define size_t unsigned long
#define ptrdiff_t long
#endif
