#include "analysed.h"

/* How often each last digit was read. A remainder has rows only where it is a whole right side: so it has a name, and
   stands in no index. */
int count[10];

int main(void) {
  for (int k = 0; k < 1000; k++) {
    long value = input();
    assume(value >= 0);
    int bin = value % 10;
    count[bin] = count[bin] + 1;
  }
}
