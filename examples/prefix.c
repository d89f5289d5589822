/* Prefix sums by Hillis and Steele: eight threads, one for each element; in every round all read, meet, write, meet. */
#include <pthread.h>
#include <stdio.h>
#define SIZE 8

pthread_t workers[SIZE];
pthread_barrier_t meeting;
int sums[SIZE];

void *scan(void *arg) {
  int i = (int)(long)arg;
  int step, other;
  for (step = 1; step < SIZE; step *= 2) {
    other = 0;
    if (i >= step)
      other = sums[i - step];
    pthread_barrier_wait(&meeting);
    sums[i] += other;
    pthread_barrier_wait(&meeting);
  }
  return NULL;
}

int main(void) {
  int i;
  for (i = 0; i < SIZE; i++)
    sums[i] = i * i + 1;
  pthread_barrier_init(&meeting, NULL, SIZE);
  for (i = 0; i < SIZE; i++)
    pthread_create(&workers[i], NULL, scan, (void *)(long)i);
  for (i = 0; i < SIZE; i++)
    pthread_join(workers[i], NULL);
  for (i = 0; i < SIZE; i++)
    printf("%d\n", sums[i]);
  return 0;
}
