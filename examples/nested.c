#include "analysed.h"

int main(void) {
  long line, column = 0;
  for (line = 0; line < 8; line++) {
    for (column = 0; column < 3; column++) {
      assert(line <= 7 && column <= 2);
    }
    if (input()) return 0;
  }
  assert(line == 8);
  assert(column >= 0 && column <= 3);
}
