/* For hlsc: the profile has no function of C99 7.20; NULL is a word of it. */
#include <stddef.h>
