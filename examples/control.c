#include "analysed.h"

long clamp(long value, long low, long high) {
  if (value < low) return low;
  if (value > high) return high;
  return value;
}

int main(void) {
  long target = 50, output = 0;
  while (input()) {
    long measured = clamp(input(), 0, 100);
    output = clamp(output + target - measured, -20, 20);
    assert(output >= -20 && output <= 20);
  }
}
