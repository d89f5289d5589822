/* A ring of four stages that hand data on: in each round every stage takes the word that its neighbour put out in the round
   before, works on it and puts it out; a barrier stands between reading and writing. */
#include <pthread.h>
#include <stdio.h>
#define STAGES 4
#define ROUNDS 12

pthread_t stages[STAGES];
pthread_barrier_t beat;
unsigned words[STAGES] = {1, 2, 3, 4};

void *stage(void *arg) {
  int own = (int)(long)arg;
  unsigned word;
  int round;
  for (round = 0; round < ROUNDS; round++) {
    word = words[(own + STAGES - 1) % STAGES];
    pthread_barrier_wait(&beat);
    words[own] = word * 3 + (unsigned)own;
    pthread_barrier_wait(&beat);
  }
  return NULL;
}

int main(void) {
  int i;
  pthread_barrier_init(&beat, NULL, STAGES);
  for (i = 0; i < STAGES; i++)
    pthread_create(&stages[i], NULL, stage, (void *)(long)i);
  for (i = 0; i < STAGES; i++)
    pthread_join(stages[i], NULL);
  printf("%u %u %u %u\n", words[0], words[1], words[2], words[3]);
  pthread_barrier_destroy(&beat);
  return 0;
}
