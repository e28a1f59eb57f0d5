#include "analysed.h"

/* The gap between two readings is one of their two differences, and it is added to the lesser of them to get the greater.
   Over one polyhedron only its bounds are known. */
int main(void) {
  long one = input();
  long two = input();
  assume(one >= -1000 && one <= 1000 && two >= -1000 && two <= 1000);
  long gap;
  if (one <= two)
    gap = two - one;
  else
    gap = one - two;
  assert(gap >= 0);
  assert(one + gap == two || two + gap == one);
}
