/* The work of examples/rows.c by main alone. */
#include <stdio.h>
#define SIZE 8

int left[64];
int right[64];
int product[64];

int main(void) {
  int i, row, column, k, sum, trace = 0;
  for (i = 0; i < SIZE * SIZE; i++) {
    left[i] = i % 7 - 3;
    right[i] = i % 5 + 1;
  }
  for (row = 0; row < SIZE; row++)
    for (column = 0; column < SIZE; column++) {
      sum = 0;
      for (k = 0; k < SIZE; k++)
        sum += left[row * SIZE + k] * right[k * SIZE + column];
      product[row * SIZE + column] = sum;
    }
  for (i = 0; i < SIZE; i++) {
    printf("%d %d %d %d", product[i * SIZE], product[i * SIZE + 1], product[i * SIZE + 2], product[i * SIZE + 3]);
    printf(" %d %d %d %d\n", product[i * SIZE + 4], product[i * SIZE + 5], product[i * SIZE + 6], product[i * SIZE + 7]);
    trace += product[i * SIZE + i];
  }
  printf("trace %d\n", trace);
  return 0;
}
