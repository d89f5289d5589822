#include <stdio.h>
int main(void) {
  int a[8];
  int i, j;
  unsigned x = 12345;
  for (i = 0; i < 8; i++) {
    x = x * 1103515245u + 12345u;
    a[i] = (int)(x >> 16 & 1023u) - 512;
  }
  for (i = 0; i < 8; i++) {
    for (j = 0; j + 1 < 8 - i; j++) {
      if (a[j] > a[j + 1]) {
        int t = a[j];
        a[j] = a[j + 1];
        a[j + 1] = t;
      }
    }
  }
  for (i = 0; i < 8; i++) {
    printf("%d ", a[i]);
  }
  printf("\n");
  return 0;
}
