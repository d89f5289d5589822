/* For hlsc: printf is a word of the profile, and there is nothing else of C99 7.19 in it. */
#include <stddef.h>
