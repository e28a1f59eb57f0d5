#include "analysed.h"

/* A window that slides over a buffer and never gets longer than eight. */
int main(void) {
  long first = 0, last = 0;
  while (input()) {
    last = last + 1;
    if (last - first > 8) first = last - 8;
  }
  assert(last - first <= 8);
  assert(first <= last);
}
