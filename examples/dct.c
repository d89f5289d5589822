/* A discrete cosine transform of 8 x 8 samples, by rows and then by columns, and a quantiser, as in a JPEG encoder.
   Coefficients are in fixed point, with 13 bits of fraction. */
#include <stdio.h>
#define N 8
static const short c[N][N] = {
  {2896, 2896, 2896, 2896, 2896, 2896, 2896, 2896},
  {4017, 3406, 2276, 799, -799, -2276, -3406, -4017},
  {3784, 1567, -1567, -3784, -3784, -1567, 1567, 3784},
  {3406, -799, -4017, -2276, 2276, 4017, 799, -3406},
  {2896, -2896, -2896, 2896, 2896, -2896, -2896, 2896},
  {2276, -4017, 799, 3406, -3406, -799, 4017, -2276},
  {1567, -3784, 3784, -1567, -1567, 3784, -3784, 1567},
  {799, -2276, 3406, -4017, 4017, -3406, 2276, -799}
};
static const unsigned char q[N][N] = {
  {16, 11, 10, 16, 24, 40, 51, 61},
  {12, 12, 14, 19, 26, 58, 60, 55},
  {14, 13, 16, 24, 40, 57, 69, 56},
  {14, 17, 22, 29, 51, 87, 80, 62},
  {18, 22, 37, 56, 68, 109, 103, 77},
  {24, 35, 55, 64, 81, 104, 113, 92},
  {49, 64, 78, 87, 103, 121, 120, 101},
  {72, 92, 95, 98, 112, 100, 103, 99}
};
short px[N][N], tmp[N][N], z[N][N];

static int rounded(int s) { return (s + 4096) >> 13; }

void rows(void) {
  for (int i = 0; i < N; i++)
    for (int u = 0; u < N; u++) {
      int s = 0;
      for (int k = 0; k < N; k++) s += c[u][k] * px[i][k];
      tmp[i][u] = rounded(s);
    }
}
void columns(void) {
  for (int i = 0; i < N; i++)
    for (int u = 0; u < N; u++) {
      int s = 0;
      for (int k = 0; k < N; k++) s += c[u][k] * tmp[k][i];
      z[u][i] = rounded(s);
    }
}
int main() {
  for (int i = 0; i < N * N; i++) px[i / N][i % N] = (i * i * 7 + 13 * i) % 256 - 128;
  rows();
  columns();
  for (int i = 0; i < N; i++)
    for (int j = 0; j < N; j++) {
      printf("%d", z[i][j] / q[i][j]);
      if (j == N - 1) printf("\n"); else printf(" ");
    }
  return 0;
}
