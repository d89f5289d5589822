/* The work of examples/bitonic.c by main alone. */
#include <stdio.h>
#define SIZE 16
#define PAIRS 8

int keys[SIZE];

int main(void) {
  unsigned x = 7;
  int i, length, distance, pair, low, high, a, b;
  for (i = 0; i < SIZE; i++) {
    x = x * 1664525 + 1013904223;
    keys[i] = (int)(x >> 20) - 2048;
  }
  for (length = 2; length <= SIZE; length *= 2)
    for (distance = length / 2; distance > 0; distance /= 2)
      for (pair = 0; pair < PAIRS; pair++) {
        low = 2 * pair - (pair & (distance - 1));
        high = low + distance;
        a = keys[low];
        b = keys[high];
        if (((low & length) == 0 && a > b) || ((low & length) != 0 && a < b)) {
          keys[low] = b;
          keys[high] = a;
        }
      }
  for (i = 0; i < SIZE; i++)
    printf("%d\n", keys[i]);
  return 0;
}
