#include "analysed.h"

int main(void) {
  long place = 0;
  while (1) {
    if (place >= 100) break;
    if (input() == 0) break;
    place++;
  }
  assert(place >= 0 && place <= 100);
  assert(place < 100);
}
