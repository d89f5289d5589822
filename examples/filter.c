#include <stdio.h>
/* A filter of five taps on a square wave: each output is the weighted sum of the last five samples */
int main(void) {
  int taps[5];
  int samples[5];
  int i;
  int n;
  taps[0] = 1;
  taps[1] = 4;
  taps[2] = 6;
  taps[3] = 4;
  taps[4] = 1;
  for (i = 0; i < 5; i++) {
    samples[i] = 0;
  }
  for (n = 0; n < 24; n++) {
    int sum = 0;
    for (i = 4; i > 0; i--) {
      samples[i] = samples[i - 1];
    }
    if (n / 6 % 2 == 0) {
      samples[0] = 100;
    } else {
      samples[0] = -100;
    }
    for (i = 0; i < 5; i++) {
      sum += taps[i] * samples[i];
    }
    printf("%d\n", sum / 16);
  }
  return 0;
}
