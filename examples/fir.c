#include <stdio.h>
/* A low pass of eight taps in fixed point: coefficients and the last samples stand in memories, and `step` takes a sample */
const short taps[8] = {-512, 1024, 5120, 10752, 10752, 5120, 1024, -512};
short samples[8];
unsigned newest;

int step(short sample) {
  int sum = 0;
  unsigned k;
  newest = (newest + 1u) % 8u;
  samples[newest] = sample;
  for (k = 0u; k < 8u; k++) {
    sum += taps[k] * samples[(newest - k) % 8u];
  }
  return sum >> 15;
}

int main(void) {
  int n;
  int out;
  for (n = 0; n < 32; n++) {
    if (n / 8 % 2 == 0) {
      out = step(12000);
    } else {
      out = step(-12000);
    }
    printf("%d %d\n", n, out);
  }
  return 0;
}
