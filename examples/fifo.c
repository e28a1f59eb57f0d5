#include "analysed.h"

/* A ring buffer of eight places with its array: the oldest number is at head, a new one goes behind the last that is
   held. Each round ends with the bounds from which the next one begins. */
long place[8];
long head = 0, held = 0;

void put(long value) {
  if (held == 8) return;
  long behind = head + held;
  if (behind >= 8) behind = behind - 8;
  place[behind] = value;
  held++;
}

long take(void) {
  if (held == 0) return 0;
  long value = place[head];
  head++;
  if (head == 8) head = 0;
  held--;
  return value;
}

int main(void) {
  while (input()) {
    if (input()) put(input());
    else take();
    assert(head >= 0 && head <= 7 && held >= 0 && held <= 8);
  }
}
