/* The work of examples/fir16.c by main alone. */
#include <stdio.h>
#define TAPS 16
#define N 256

static const short coeff[TAPS] = {
  -12, -30, 18, 160, 420, 760, 1060, 1232, 1232, 1060, 760, 420, 160, 18, -30, -12
};
short x[N + TAPS - 1];
int y[N];

static short sample(int n) {
  if (n & 32) return 12000;
  return -12000;
}

int main(void) {
  for (int i = 0; i < N; i++)
    x[i + TAPS - 1] = sample(i);
  for (int i = 0; i < N; i++) {
    int acc = 0;
    for (int k = 0; k < TAPS; k++)
      acc += coeff[k] * x[i + TAPS - 1 - k];
    y[i] = acc >> 13;
  }
  unsigned sum = 0;
  for (int i = 0; i < N; i++)
    sum = sum * 31 + y[i];
  printf("checksum %u\n", sum);
  return 0;
}
