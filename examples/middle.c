#include "analysed.h"

/* The middle of two places in a sorted array, as binary search asks for it. Their distance fits an int; their sum
   may overflow where the array has more than 2^30 places (J. Bloch, 2006), and the run ends there: behind it the lower
   place is below 2^30. */
int main(void) {
  long from = input(), to = input();
  assume(0 <= from && from <= to && to <= 2147483647);
  int low = from, high = to;
  int distance = high - low;
  assert(distance >= 0 && low + distance == high);
  int sum = low + high;
  assert(sum >= 0 && low <= 1073741823);
}
