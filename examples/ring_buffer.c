/* A queue of two slots for one producer and one consumer, without a lock: right under SC and TSO. Under PSO the count may be in memory before
   the item, and the consumer takes what is not there. */
#include <assert.h>
#include <pthread.h>

void __VERIFIER_assume(int condition);

int ring[2];
unsigned put, taken;

void *producer(void *p)
{
  unsigned i;
  for (i = 0; i < 3; i++) {
    __VERIFIER_assume(put - taken < 2);
    ring[i & 1] = i + 1;
    put = i + 1;
  }
  return 0;
}

void *consumer(void *p)
{
  unsigned i;
  for (i = 0; i < 3; i++) {
    __VERIFIER_assume(taken != put);
    assert(ring[i & 1] == i + 1);
    taken = i + 1;
  }
  return 0;
}

int main(void)
{
  pthread_t a, b;
  pthread_create(&a, 0, producer, 0);
  pthread_create(&b, 0, consumer, 0);
  pthread_join(a, 0);
  pthread_join(b, 0);
  return 0;
}
