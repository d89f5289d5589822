/* Edges of a grey picture by Sobel's masks: four threads, each of which works on every fourth row. */
#include <pthread.h>
#include <stdio.h>
#define HEIGHT 12
#define WIDTH 20
#define THREADS 4

static const int mask[3][3] = {{-1, 0, 1}, {-2, 0, 2}, {-1, 0, 1}};
unsigned char picture[HEIGHT][WIDTH];
unsigned char edges[HEIGHT][WIDTH];
pthread_t threads[THREADS];

static int magnitude(int x) { return x < 0 ? -x : x; }

static int gradient(int y, int x, int is_vertical) {
  int sum = 0;
  for (int i = 0; i < 3; i++)
    for (int j = 0; j < 3; j++)
      sum += (is_vertical ? mask[j][i] : mask[i][j]) * picture[y + i - 1][x + j - 1];
  return sum;
}

void *work(void *arg) {
  for (int y = (int)(long)arg + 1; y < HEIGHT - 1; y += THREADS)
    for (int x = 1; x < WIDTH - 1; x++) {
      int edge = magnitude(gradient(y, x, 0)) + magnitude(gradient(y, x, 1));
      edges[y][x] = edge > 255 ? 255 : edge;
    }
  return NULL;
}

int main(void) {
  /* a bright disc before a ramp */
  for (int y = 0; y < HEIGHT; y++)
    for (int x = 0; x < WIDTH; x++)
      picture[y][x] = (x - 9) * (x - 9) + 3 * (y - 5) * (y - 5) < 40 ? 200 : 4 * x + y;
  for (int i = 0; i < THREADS; i++)
    pthread_create(&threads[i], NULL, work, (void *)(long)i);
  for (int i = 0; i < THREADS; i++)
    pthread_join(threads[i], NULL);
  for (int y = 1; y < HEIGHT - 1; y++) {
    for (int x = 1; x < WIDTH - 1; x++)
      printf("%d", edges[y][x] >> 6);
    printf("\n");
  }
  return 0;
}
