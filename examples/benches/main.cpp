// Drives the clock of a built text in Verilator until done is shown, and then tells the cycles. There is no reset: registers have initial values,
// and the clock starts at 0.
#include <cstdio>

#include "Vtop_rr.h"
#include "verilated.h"

int main(int argc, char **argv) {
  Verilated::commandArgs(argc, argv);
  Vtop_rr top;
  long cycles = 0;
  top.clk = 0;
  top.eval();
  while (!top.done && cycles < 10000000) {
    top.clk = 1;
    top.eval();
    top.clk = 0;
    top.eval();
    cycles++;
  }
  std::printf("%s, %ld cycles\n", top.done ? "done" : "not done", cycles);
  const bool is_done = top.done;
  top.final();
  return is_done ? 0 : 1;
}
