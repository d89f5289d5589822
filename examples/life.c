#include <stdio.h>
/* Conway's game of life on 8 by 8 cells whose edges meet: a glider and a blinker, and each row of the last generation as a number */
#define SIDE 8
unsigned char cells[64] = {0, 1, 0, 0, 0, 0, 0, 0, 0, 0, 1, 0, 0, 0, 0, 0, 1, 1, 1};
unsigned char sums[64];

void count(int x, int y) {
  int row;
  sums[y * SIDE + x] = 0;
  for (row = y + SIDE - 1; row <= y + SIDE + 1; row++) {
    sums[y * SIDE + x] += cells[row % SIDE * SIDE + (x + SIDE - 1) % SIDE] + cells[row % SIDE * SIDE + x] + cells[row % SIDE * SIDE + (x + 1) % SIDE];
  }
}

void generation(void) {
  int n;
  for (n = 0; n < SIDE * SIDE; n++) {
    count(n % SIDE, n / SIDE);
  }
  for (n = 0; n < SIDE * SIDE; n++) {
    if (sums[n] == 3 || (sums[n] == 4 && cells[n])) {
      cells[n] = 1;
    } else {
      cells[n] = 0;
    }
  }
}

int main(void) {
  int n;
  int row = 0;
  for (n = 4; n < 7; n++) {
    cells[6 * SIDE + n] = 1;
  }
  for (n = 0; n < 4; n++) {
    generation();
  }
  for (n = 0; n < SIDE * SIDE; n++) {
    row = row * 2 + cells[n];
    if (n % SIDE == SIDE - 1) {
      printf("%d\n", row);
      row = 0;
    }
  }
  return 0;
}
