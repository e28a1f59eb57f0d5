#include "analysed.h"

/* A matrix of four rows and five columns in one array, row by row, and the sums of its rows and columns. */
int main(void) {
  long cell[20], row[4], column[5];
  for (int i = 0; i < 4; i++) row[i] = 0;
  for (int j = 0; j < 5; j++) column[j] = 0;
  for (int i = 0; i < 4; i++)
    for (int j = 0; j < 5; j++) cell[5 * i + j] = input();
  for (int i = 0; i < 4; i++)
    for (int j = 0; j < 5; j++) {
      row[i] = row[i] + cell[5 * i + j];
      column[j] = column[j] + cell[5 * i + j];
    }
}
