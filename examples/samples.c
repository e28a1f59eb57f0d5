#include "analysed.h"

/* A sum of at most 1,000 samples of 16 bits fits an int: a relation of sum and count, which only polyhedra tell. */
int main(void) {
  int sum = 0, count = 0;
  while (count < 1000) {
    long read = input();
    assume(read >= -32768 && read <= 32767);
    sum = sum + read;
    count++;
  }
  assert(sum >= -32768000 && sum <= 32767000);
}
