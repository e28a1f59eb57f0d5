#include "analysed.h"

int main(void) {
  long up = 0, down = 10;
  while (up < 10) up++;
  while (down > 0) down--;
  assert(up == 10);
  assert(down == 0);
}
