/* A shared variable without initialiser holds 0. */
#include <assert.h>

int x;

int main() {
  assert(x == 1);
  return 0;
}
