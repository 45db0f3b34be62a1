/* Peterson's lock with a fence behind the writes that ask for it: mutual exclusion under TSO. Under PSO it fails all the same, since the
   write to what the lock guards may reach memory after the write that gives the lock up: that one wants a fence before it, too. */
#include <assert.h>
#include <pthread.h>

void __VERIFIER_assume(int condition);

int flag0, flag1, turn;
int inside;

void *first(void *p)
{
  flag0 = 1;
  turn = 1;
  __sync_synchronize();
  __VERIFIER_assume(flag1 == 0 || turn == 0);
  inside = 1;
  assert(inside == 1);
  flag0 = 0;
  return 0;
}

void *second(void *p)
{
  flag1 = 1;
  turn = 0;
  __sync_synchronize();
  __VERIFIER_assume(flag0 == 0 || turn == 1);
  inside = 2;
  assert(inside == 2);
  flag1 = 0;
  return 0;
}

int main(void)
{
  pthread_t a, b;
  pthread_create(&a, 0, first, 0);
  pthread_create(&b, 0, second, 0);
  pthread_join(a, 0);
  pthread_join(b, 0);
  return 0;
}
