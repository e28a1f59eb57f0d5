#include "analysed.h"

/* Two numbers in order. */
int main(void) {
  long a = input(), b = input();
  long low = a, high = b;
  if (a > b) {
    low = b;
    high = a;
  }
  assert(low <= high);
  assert(low <= a && low <= b);
}
