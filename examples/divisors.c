#include <stdio.h>
/* The greatest common divisor and the least common multiple of pairs, by functions that call each other */
unsigned gcd(unsigned a, unsigned b) {
  while (b != 0u) {
    unsigned rest = a % b;
    a = b;
    b = rest;
  }
  return a;
}
unsigned lcm(unsigned a, unsigned b) {
  unsigned d;
  if (a == 0u || b == 0u) {
    return 0u;
  }
  d = gcd(a, b);
  return a / d * b;
}
void show(unsigned a, unsigned b) {
  unsigned d = gcd(a, b);
  unsigned m = lcm(a, b);
  printf("%u %u: %u %u\n", a, b, d, m);
}
int main(void) {
  unsigned a;
  for (a = 12u; a < 100u; a += 18u) {
    show(a, 84u);
    show(a, 35u);
  }
  show(0u, 7u);
  return 0;
}
