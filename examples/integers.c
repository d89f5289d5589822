#include <stdio.h>
int main(void) {
  unsigned char b = 200;
  long long x = -7;
  unsigned u = 3000000000u;
  b += 100;
  x = x * 1000000007 + (long long)u;
  u = u << 3 ^ 5u;
  printf("%u %lld %u%%\n", b, x, u);
  x /= 3; x -= ~x; 
  printf("%lld %d\n", x, !x);
  printf("%d %lld\n", -(5 % 3), x >> 3);
  return 0;
}
