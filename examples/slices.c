/* A histogram of 256 samples: four threads count the levels of a slice each by themselves, and add them to the shared
   histogram under a mutex. */
#include <pthread.h>
#include <stdio.h>
#define THREADS 4
#define SAMPLES 256
#define LEVELS 8

pthread_t workers[THREADS];
pthread_mutex_t guard = PTHREAD_MUTEX_INITIALIZER;
unsigned char samples[SAMPLES];
unsigned counts[LEVELS];

void *count(void *arg) {
  int first = (int)(long)arg * (SAMPLES / THREADS);
  unsigned own[LEVELS];
  int i;
  for (i = 0; i < LEVELS; i++)
    own[i] = 0;
  for (i = first; i < first + SAMPLES / THREADS; i++)
    own[samples[i] / 32]++;
  pthread_mutex_lock(&guard);
  for (i = 0; i < LEVELS; i++)
    counts[i] += own[i];
  pthread_mutex_unlock(&guard);
  return NULL;
}

int main(void) {
  unsigned x = 1;
  int i;
  for (i = 0; i < SAMPLES; i++) {
    x = x * 1664525 + 1013904223;
    samples[i] = x >> 24;
  }
  for (i = 0; i < THREADS; i++)
    pthread_create(&workers[i], NULL, count, (void *)(long)i);
  for (i = 0; i < THREADS; i++)
    pthread_join(workers[i], NULL);
  for (i = 0; i < LEVELS; i++)
    printf("%d: %u\n", i * 32, counts[i]);
  return 0;
}
