#include "analysed.h"

int main(void) {
  long celsius = input(), tenths;
  assume(celsius >= -273 && celsius <= 1000);
  tenths = 18 * celsius + 320;
  assert(tenths >= -4594);
  assert(tenths <= 18320);
}
