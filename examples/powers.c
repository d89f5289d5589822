#include <stdio.h>
/* Powers modulo a number by repeated squaring; a call of a call */
unsigned long product(unsigned long a, unsigned long b, unsigned long m) {
  return a * b % m;
}
unsigned long power(unsigned long base, unsigned long exponent, unsigned long m) {
  unsigned long result = 1ul;
  while (exponent != 0ul) {
    if (exponent & 1ul) {
      result = product(result, base, m);
    }
    base = product(base, base, m);
    exponent >>= 1;
  }
  return result;
}
int main(void) {
  unsigned long base;
  for (base = 2ul; base < 8ul; base++) {
    unsigned long result = power(base, 30ul, 1000007ul);
    printf("%lu\n", result);
  }
  return 0;
}
