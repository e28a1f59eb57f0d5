#include "analysed.h"

int main(void) {
  long left = input(), right = input(), sum;
  assume(left >= 0 && left <= 1000000);
  assume(right >= 0 && right <= 1000000);
  sum = left + right;
  if (sum > 1000000) sum = 1000000;
  assert(sum >= 0 && sum <= 1000000);
}
