#include <stdio.h>
/* A grey picture of 16 by 16 pixels is spread over all 256 levels: histogram, running sums, a level for each level */
#define SIDE 16
unsigned char picture[256];
unsigned short count[256];
unsigned char level[256];
int lowest = 255, highest;

void draw(void) {
  int x;
  int y;
  for (y = 0; y < SIDE; y++) {
    for (x = 0; x < SIDE; x++) {
      picture[y * SIDE + x] = (unsigned char)(90 + (x * y + 3 * x) / 6);
    }
  }
}

int main(void) {
  int n;
  int below = 0;
  draw();
  for (n = 0; n < 256; n++) {
    count[picture[n]]++;
  }
  for (n = 0; n < 256; n++) {
    below += count[n];
    level[n] = (unsigned char)(below * 255 / 256);
  }
  for (n = 0; n < 256; n++) {
    picture[n] = level[picture[n]];
    if (picture[n] < lowest) lowest = picture[n];
    if (picture[n] > highest) highest = picture[n];
  }
  printf("%d %d\n", lowest, highest);
  for (n = 0; n < SIDE; n++) {
    printf("%d %d %d\n", picture[n], picture[n * SIDE + 7], picture[n * SIDE + n]);
  }
  return 0;
}
