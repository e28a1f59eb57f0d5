#include "analysed.h"

/* The days of a month, leap years left aside: labels that share what stands behind them. */
int days_of(int month) {
  int days;
  switch (month) {
    case 4: case 6: case 9: case 11:
      days = 30;
      break;
    case 2:
      days = 28;
      break;
    default:
      days = 31;
  }
  return days;
}

int main(void) {
  long asked = input();
  assume(asked >= 1 && asked <= 12);
  int days = days_of(asked);
  assert(days >= 28 && days <= 31);
}
