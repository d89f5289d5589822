#include <stdio.h>
int main(void) {
  int i;
  unsigned long s = 0;
  for (i = 1; i < 20; i++) {
    if (i % 3 == 0) continue;
    if (i == 17) break;
    s = s * 31 + (unsigned long)i;
    printf("%d %lu\n", i, s);
  }
  char c = 127;
  c++;
  printf("%d\n", c);
  short h = -5;
  printf("%d %d %d\n", h / 2, h % 2, h >> 1);
  do { i--; } while (i > 3 && i != 9);
  printf("%d\n", i);
  return 0;
}
