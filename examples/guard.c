#include "analysed.h"

int main(void) {
  long reading = input(), doubled = 0;
  if (reading >= -1000000000 && reading <= 1000000000) {
    doubled = reading + reading;
  }
  assert(doubled >= -2000000000);
  assert(doubled <= 2000000000);
  assert(doubled < 2000000000);
}
