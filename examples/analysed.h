/* What a C compiler needs to compile the programs here: input, assume and assert. */
#pragma once
#include <assert.h>
#include <stdio.h>
#include <stdlib.h>

/* The next number of standard input; the run ends where there is none. */
static inline long input(void) {
  long number;
  if (scanf("%ld", &number) != 1) exit(0);
  return number;
}

/* The run ends where the condition is false. */
#define assume(condition) ((condition) ? (void)0 : exit(0))
