#include <stdio.h>
/* Square roots in fixed point with 16 bits behind the point, by Newton's method */
int main(void) {
  int n;
  for (n = 1; n <= 10; n++) {
    unsigned long square = (unsigned long)n << 32;
    unsigned long root = (unsigned long)n << 16;
    unsigned long last;
    do {
      last = root;
      root = (root + square / root) / 2ul;
    } while (root < last);
    printf("%d: %lu.%lu\n", n, last >> 16, (last & 65535ul) * 10000ul >> 16);
  }
  return 0;
}
