/* The work of examples/prefix.c by main alone: from the last element down, so that no sum is read after it was written. */
#include <stdio.h>
#define SIZE 8

int sums[SIZE];

int main(void) {
  int i, step;
  for (i = 0; i < SIZE; i++)
    sums[i] = i * i + 1;
  for (step = 1; step < SIZE; step *= 2)
    for (i = SIZE - 1; i >= step; i--)
      sums[i] += sums[i - step];
  for (i = 0; i < SIZE; i++)
    printf("%d\n", sums[i]);
  return 0;
}
