/* The names of C99 7.16 for hlsc. The profile has no _Bool: a bool is an unsigned char here, which keeps the low 8 bits
   of what is assigned where _Bool keeps whether it is 0 (6.3.1.2). hlsc notes where a text uses it. */
#ifndef HLSC_STDBOOL_H
#define HLSC_STDBOOL_H
#define bool unsigned char
#define true 1
#define false 0
#define __bool_true_false_are_defined 1
#endif
