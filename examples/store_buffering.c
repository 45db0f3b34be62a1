/* Store buffering: each thread writes its own variable and reads the other's. May both read 0? */
#include <assert.h>
#include <pthread.h>

int x, y, r, s;

void *a(void *p) { x = 1; r = y; return 0; }
void *b(void *p) { y = 1; s = x; return 0; }

int main() {
  pthread_t t[2];
  pthread_create(&t[0], 0, a, 0);
  pthread_create(&t[1], 0, b, 0);
  pthread_join(t[0], 0);
  pthread_join(t[1], 0);
  assert(!(r == 0 && s == 0));
  return 0;
}
