/* A work queue: three workers take the next job from a shared counter under a mutex until none is left. Who does which job
   is open; what comes out is not. A job is the length of a Collatz sequence. */
#include <pthread.h>
#include <stdio.h>
#define WORKERS 3
#define JOBS 20

pthread_t workers[WORKERS];
pthread_mutex_t queue = PTHREAD_MUTEX_INITIALIZER;
int next_job;
int lengths[JOBS];

int length_of(unsigned n) {
  int steps = 0;
  while (n != 1) {
    if (n % 2 == 0)
      n = n / 2;
    else
      n = 3 * n + 1;
    steps++;
  }
  return steps;
}

void *work(void *arg) {
  int job;
  while (1) {
    pthread_mutex_lock(&queue);
    job = next_job;
    next_job++;
    pthread_mutex_unlock(&queue);
    if (job >= JOBS)
      break;
    lengths[job] = length_of((unsigned)job + 1);
  }
  return NULL;
}

int main(void) {
  int i;
  for (i = 0; i < WORKERS; i++)
    pthread_create(&workers[i], NULL, work, NULL);
  for (i = 0; i < WORKERS; i++)
    pthread_join(workers[i], NULL);
  for (i = 0; i < JOBS; i++)
    printf("%d: %d\n", i + 1, lengths[i]);
  return 0;
}
