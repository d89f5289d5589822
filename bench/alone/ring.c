/* The work of examples/ring.c by main alone. */
#include <stdio.h>
#define STAGES 4
#define ROUNDS 12

unsigned words[STAGES] = {1, 2, 3, 4};
unsigned taken[STAGES];

int main(void) {
  int round, own;
  for (round = 0; round < ROUNDS; round++) {
    for (own = 0; own < STAGES; own++)
      taken[own] = words[(own + STAGES - 1) % STAGES];
    for (own = 0; own < STAGES; own++)
      words[own] = taken[own] * 3 + (unsigned)own;
  }
  printf("%u %u %u %u\n", words[0], words[1], words[2], words[3]);
  return 0;
}
