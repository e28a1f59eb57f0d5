/* Elements in several places of one statement, one within another, and in a function on two paths of calls. */
int cells[4];

int take(int at) {
  return cells[at];
}

int main(void) {
  int i = input();
  assume(i >= 0 && i <= 3);
  cells[i] = cells[cells[0]] + cells[3] +
             cells[i + 1];
  int first = take(3), next = take(4);
  if (i > 3) cells[i] = 0;
  for (i = 0; i < 4 && cells[i /* from 0 */] > 0; i = i + 1)
    ;
  assert(cells[i % 4] >= 0 || first == next);
}
