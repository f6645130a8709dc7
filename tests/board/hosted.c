/* How programs for examples/board print where there is a C library. */
#include "board.h"

#include <stdio.h>

void print(const char *text) { fputs(text, stdout); }
