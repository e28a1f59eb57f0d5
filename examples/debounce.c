#include "analysed.h"

long stable = 0, same = 0;

void sample(long level) {
  if (level == stable) {
    same = 0;
    return;
  }
  same++;
  if (same >= 4) {
    stable = level;
    same = 0;
  }
}

int main(void) {
  for (long tick = 0; tick < 1000; tick++) {
    if (input()) sample(1);
    else sample(0);
    assert(same >= 0 && same <= 3);
    assert(stable >= 0 && stable <= 1);
  }
}
