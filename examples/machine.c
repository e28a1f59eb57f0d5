#include "analysed.h"

long state, errors = 0;

void step(long event) {
  if (state == 0 && event == 1) state = 1;
  else if (state == 1 && event == 2) state = 2;
  else if (event < 0) {
    state = 0;
    if (errors < 3) errors++;
  }
}

int main(void) {
  while (errors < 3) {
    step(input());
    assert(state >= 0 && state <= 2);
  }
  assert(errors == 3);
}
