/* The work of examples/tree.c by main alone. */
#include <stdio.h>
#define SIZE 64

int values[SIZE];
int halves[2];

int main(void) {
  int i;
  for (i = 0; i < SIZE; i++)
    values[i] = i * 3 % 17;
  for (i = 0; i < SIZE; i++)
    halves[i / 32] += values[i];
  printf("%d + %d = %d\n", halves[0], halves[1], halves[0] + halves[1]);
  return 0;
}
