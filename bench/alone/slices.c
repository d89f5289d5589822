/* The work of examples/slices.c by main alone. */
#include <stdio.h>
#define SAMPLES 256
#define LEVELS 8

unsigned char samples[SAMPLES];
unsigned counts[LEVELS];

int main(void) {
  unsigned x = 1;
  int i;
  for (i = 0; i < SAMPLES; i++) {
    x = x * 1664525 + 1013904223;
    samples[i] = x >> 24;
  }
  for (i = 0; i < SAMPLES; i++)
    counts[samples[i] / 32]++;
  for (i = 0; i < LEVELS; i++)
    printf("%d: %u\n", i * 32, counts[i]);
  return 0;
}
