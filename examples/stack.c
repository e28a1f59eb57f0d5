#include "analysed.h"

/* A stack of 32 places, whose push looks whether there is room, and is one too late: with 32 in it the next one goes
   past its end, and the report says so. With `if (top >= 32) return;` both accesses are inside. */
long place[32];
int top = 0;

void push(long value) {
  if (top > 32) return;
  place[top] = value;
  top++;
}

long pop(void) {
  if (top < 1 || top > 32) return 0;
  top--;
  return place[top];
}

int main(void) {
  while (input()) {
    if (input()) push(input());
    else pop();
  }
}
