#include "analysed.h"

/* The magnitude of an int; of the least one there is none. With any int the sign may overflow, and a run where it does
   ends: behind it none is below 0. With a sample of 12 bits and a sign it fits, and is at most 4096. */
int magnitude(int x) {
  if (x < 0) return -x;
  return x;
}

int main(void) {
  int any;
  int unsure = magnitude(any);
  long read = input();
  assume(read >= -4096 && read <= 4095);
  int sample = read;
  int sure = magnitude(sample);
  assert(sure >= 0 && sure <= 4096);
  assert(unsure >= 0);
}
