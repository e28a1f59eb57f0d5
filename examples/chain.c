#include "analysed.h"

long check(long request) {
  if (request < 0) return -1;
  if (request > 99) return -2;
  return request;
}

long handle(long request) {
  long checked = check(request);
  if (checked < 0) return checked;
  return checked * 2;
}

int main(void) {
  long answer = handle(input());
  assert(answer >= -2);
  assert(answer <= 198);
  if (answer < 0) return 1;
}
