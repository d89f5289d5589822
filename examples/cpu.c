/* A processor of twelve instructions, three registers and a memory of twelve words, which interprets a program: it
   writes Fibonacci's numbers to its memory, and prints those that are odd, the last one first. */
#include <stdio.h>
#define HALT 0
#define SET 1
#define COPY 2
#define SWAP 3
#define ADD 4
#define PLUS 5
#define STORE 6
#define LOAD 7
#define COMPARE 8
#define IF_EQUAL 9
#define IF_LESS 10
#define JUMP 11
#define PRINT 12
#define LENGTH 23
#define WORDS 12

/* an instruction and its operands: registers, numbers, places of the program */
static const int program[LENGTH][3] = {
  {SET, 0, 0}, {SET, 1, 1}, {SET, 2, 0},
  /* 3: a word has one number, and the next one is the sum of two */
  {STORE, 0, 2}, {ADD, 0, 1}, {SWAP, 0, 1}, {PLUS, 2, 1}, {COMPARE, 2, WORDS}, {IF_LESS, 3},
  /* 9: from the last word to the first */
  {PLUS, 2, -1}, {LOAD, 0, 2}, {COPY, 1, 0},
  /* 12: less 2 as long as it is not below 2 */
  {COMPARE, 1, 2}, {IF_LESS, 16}, {PLUS, 1, -2}, {JUMP, 12},
  {COMPARE, 1, 0}, {IF_EQUAL, 19}, {PRINT, 0},
  {COMPARE, 2, 1}, {IF_LESS, 22}, {JUMP, 9},
  {HALT}
};
int registers[3];
int memory[WORDS];

int main(void) {
  int pc = 0, order = 0, instructions = 0, runs = 1;
  while (runs) {
    int a = program[pc][1], b = program[pc][2];
    instructions++;
    switch (program[pc][0]) {
    case SET:
      registers[a] = b;
      break;
    case COPY:
      registers[a] = registers[b];
      break;
    case SWAP:
      order = registers[a];
      registers[a] = registers[b];
      registers[b] = order;
      break;
    case ADD:
      registers[a] += registers[b];
      break;
    case PLUS:
      registers[a] += b;
      break;
    case STORE:
      memory[registers[b]] = registers[a];
      break;
    case LOAD:
      registers[a] = memory[registers[b]];
      break;
    case COMPARE:
      order = registers[a] < b ? -1 : registers[a] > b;
      break;
    case IF_EQUAL:
      if (order == 0) pc = a - 1;
      break;
    case IF_LESS:
      if (order >= 0) break;
      /* falls through */
    case JUMP:
      pc = a - 1;
      break;
    case PRINT:
      printf("%d\n", registers[a]);
      break;
    default:
      runs = 0;
    }
    pc++;
  }
  printf("%d instructions\n", instructions);
  return 0;
}
