/* A ticket lock (Mellor-Crummey and Scott 1991): each thread draws a number and waits for its turn. It guards a counter under SC and TSO; under
   PSO the next turn may be in memory before what the last one wrote. */
#include <assert.h>
#include <pthread.h>

void __VERIFIER_assume(int condition);

int next, serving;
int count;

int __VERIFIER_atomic_draw(void)
{
  int mine = next;
  next = mine + 1;
  return mine;
}

void *work(void *p)
{
  int mine = __VERIFIER_atomic_draw();
  __VERIFIER_assume(serving == mine);
  count = count + 1;
  serving = mine + 1;
  return 0;
}

int main(void)
{
  pthread_t a, b, c;
  pthread_create(&a, 0, work, 0);
  pthread_create(&b, 0, work, 0);
  pthread_create(&c, 0, work, 0);
  pthread_join(a, 0);
  pthread_join(b, 0);
  pthread_join(c, 0);
  assert(count == 3);
  return 0;
}
