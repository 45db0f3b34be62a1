/* The loop turns three times: with --unroll 2 the assertion is not reached, and --full tells so. */
#include <assert.h>

int main() {
  for (int i = 0; i < 3; i++)
    ;
  assert(0);
  return 0;
}
