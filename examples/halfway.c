#include "analysed.h"

/* The middle of two places in a sorted array, as binary search asks for it: half of their distance, added to the lower
   one, lies between them. Half is rounded down, and named in a variable: so the analysis has its rows. */
int main(void) {
  long from = input(), to = input();
  assume(0 <= from && from <= to && to <= 2147483647);
  int low = from, high = to;
  int half = (high - low) / 2;
  int middle = low + half;
  assert(low <= middle && middle <= high);
  assert(middle - low <= high - middle && high - middle <= middle - low + 1);
}
