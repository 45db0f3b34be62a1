/* Two threads write one variable: which write comes last is open. */
#include <assert.h>
#include <pthread.h>

int x;

void *a(void *p) { x = 1; return 0; }
void *b(void *p) { x = 2; return 0; }

int main() {
  pthread_t s, t;
  pthread_create(&s, 0, a, 0);
  pthread_create(&t, 0, b, 0);
  pthread_join(s, 0);
  pthread_join(t, 0);
  assert(x == 1);
  return 0;
}
