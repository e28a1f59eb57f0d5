#include "analysed.h"

/* The sign of a number, by three returns. Forward they are joined behind the call, and of a sign that is 1 nothing is known of
   the number; going back from the assertion each return is met with what is known there, and none is left: it is proved. */
long sign(long number) {
  if (number > 0) return 1;
  if (number < 0) return -1;
  return 0;
}

int main(void) {
  long x = input();
  long s = sign(x);
  if (s == 1) assert(x >= 1);
}
