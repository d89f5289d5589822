/* The work of examples/queue.c by main alone. */
#include <stdio.h>
#define JOBS 20

int lengths[JOBS];

int length_of(unsigned n) {
  int steps = 0;
  while (n != 1) {
    if (n % 2 == 0)
      n = n / 2;
    else
      n = 3 * n + 1;
    steps++;
  }
  return steps;
}

int main(void) {
  int i;
  for (i = 0; i < JOBS; i++)
    lengths[i] = length_of((unsigned)i + 1);
  for (i = 0; i < JOBS; i++)
    printf("%d: %d\n", i + 1, lengths[i]);
  return 0;
}
