#include "analysed.h"

/* A valve is closed, or open by 20 to 100 steps: never by 10, so the division below has a divisor. The least box over
   both has all openings from 0 to 100, and so has the least polyhedron: it takes two parts to tell. */
int main(void) {
  long opening = 0;
  if (input()) {
    opening = input();
    assume(opening >= 20 && opening <= 100);
  }
  assert(opening != 10);
  return 1000 / (opening - 10);
}
