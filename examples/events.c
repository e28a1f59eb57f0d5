#include "analysed.h"

int main(void) {
  long state = 0, event;
  for (;;) {
    event = input();
    if (event == 1) state = 1;
    else if (event == 2 && state == 1) state = 2;
    else if (event == 3) state = 0;
    assert(state >= 0 && state <= 2);
  }
  assert(0);
}
