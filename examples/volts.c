#include "analysed.h"

/* A 12-bit sample of a converter whose reference is 3.3 V, in 4096ths of a millivolt and of a microvolt. With 3300L
   the products have 64 bits and fit; where all factors are ints the second one may overflow: it leaves 32 bits for a
   sample above 650, and the run ends there. */
int main(void) {
  long read = input();
  assume(read >= 0 && read <= 4095);
  int sample = read;
  int millivolts = sample * 3300;
  long exact = sample * 3300L * 1000;
  assert(millivolts <= 13513500 && exact <= 13513500000);
  int microvolts = sample * 3300 * 1000;
  assert(microvolts >= 0 && sample <= 650);
}
