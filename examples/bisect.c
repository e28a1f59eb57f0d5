#include "analysed.h"

/* Binary search in a table of 16 places. Half of a sum has rows where it has a name, so middle lies between low and
   high, and inside the table. */
long table[16];

long find(long wanted) {
  long low = 0, high = 15;
  while (low <= high) {
    long middle = (low + high) / 2;
    if (table[middle] == wanted) return middle;
    if (table[middle] < wanted) low = middle + 1;
    else high = middle - 1;
  }
  return -1;
}

int main(void) {
  for (long k = 0; k < 16; k++) table[k] = input();
  long found = find(input());
  if (found >= 0) assert(found <= 15);
}
