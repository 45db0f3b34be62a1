/* A spin lock by compare and swap, given up by a plain write: right under SC and TSO. Under PSO the lock may be free in memory before the
   counter is there. A loop that spins is written as an assumption: only runs that get the lock go on. */
#include <assert.h>
#include <pthread.h>

void __VERIFIER_assume(int condition);

int lock, count;

void __VERIFIER_atomic_acquire(void)
{
  __VERIFIER_assume(lock == 0);
  lock = 1;
}

void *work(void *p)
{
  int i;
  for (i = 0; i < 2; i++) {
    __VERIFIER_atomic_acquire();
    count = count + 1;
    lock = 0;
  }
  return 0;
}

int main(void)
{
  pthread_t a, b;
  pthread_create(&a, 0, work, 0);
  pthread_create(&b, 0, work, 0);
  pthread_join(a, 0);
  pthread_join(b, 0);
  assert(count == 4);
  return 0;
}
