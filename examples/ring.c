#include "analysed.h"

long head = 0, count = 0;

long next(long index) {
  index = index + 1;
  if (index == 8) index = 0;
  return index;
}

void put(void) {
  if (count == 8) return;
  head = next(head);
  count++;
}

void take(void) {
  if (count > 0) count--;
}

int main(void) {
  while (input()) {
    if (input()) put();
    else take();
    assert(head >= 0 && head <= 7);
    assert(count >= 0 && count <= 8);
  }
}
