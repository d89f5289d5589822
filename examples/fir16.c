/* A filter of sixteen taps: four threads load every fourth sample each, meet at a barrier, and filter a quarter of the
   samples each. */
#include <pthread.h>
#include <stdio.h>

#define TAPS 16
#define N 256
#define WORKERS 4
#define CHUNK 64

static const short coeff[TAPS] = {
  -12, -30, 18, 160, 420, 760, 1060, 1232, 1232, 1060, 760, 420, 160, 18, -30, -12
};
short x[N + TAPS - 1];
int y[N];
pthread_t t[WORKERS];
pthread_barrier_t loaded;

static short sample(int n) {
  if (n & 32) return 12000;
  return -12000;
}

void *worker(void *arg) {
  const int id = (int)(long)arg;
  for (int i = id; i < N; i += WORKERS)
    x[i + TAPS - 1] = sample(i);
  pthread_barrier_wait(&loaded);
  for (int i = id * CHUNK; i < (id + 1) * CHUNK; i++) {
    int acc = 0;
    for (int k = 0; k < TAPS; k++)
      acc += coeff[k] * x[i + TAPS - 1 - k];
    y[i] = acc >> 13;
  }
  return NULL;
}

int main(void) {
  pthread_barrier_init(&loaded, NULL, WORKERS);
  for (int i = 0; i < WORKERS; i++)
    pthread_create(&t[i], NULL, worker, (void *)(long)i);
  for (int i = 0; i < WORKERS; i++)
    pthread_join(t[i], NULL);
  unsigned sum = 0;
  for (int i = 0; i < N; i++)
    sum = sum * 31 + y[i];
  printf("checksum %u\n", sum);
  return 0;
}
