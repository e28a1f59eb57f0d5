#include "analysed.h"

int main(void) {
  long number, kept = 0;
  for (number = 1; number <= 20; number++) {
    if (number % 2 != 0) continue;
    kept = number;
  }
  assert(number == 21);
  assert(kept >= 0 && kept <= 20);
}
