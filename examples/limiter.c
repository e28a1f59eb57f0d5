#include "analysed.h"

long tokens = 10;

long allow(long wanted) {
  if (wanted < 1 || wanted > tokens) return 0;
  tokens -= wanted;
  return 1;
}

void refill(void) {
  tokens += 2;
  if (tokens > 10) tokens = 10;
}

int main(void) {
  for (;;) {
    long ok = allow(input());
    refill();
    assert(tokens >= 2 && tokens <= 10);
    assert(ok >= 0 && ok <= 1);
  }
}
