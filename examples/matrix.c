#include <stdio.h>
/* The product of two matrices of four rows */
int main(void) {
  int a[4][4];
  int b[4][4];
  int i;
  int j;
  int k;
  for (i = 0; i < 4; i++) {
    for (j = 0; j < 4; j++) {
      a[i][j] = (4 * i + j) * 3 % 7 - 2;
      b[i][j] = (4 * i + j) * 5 % 11 - 4;
    }
  }
  for (i = 0; i < 4; i++) {
    for (j = 0; j < 4; j++) {
      int sum = 0;
      for (k = 0; k < 4; k++) {
        sum += a[i][k] * b[k][j];
      }
      printf("%d ", sum);
    }
    printf("\n");
  }
  return 0;
}
