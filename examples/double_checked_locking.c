/* Double-checked locking: whoever sees `ready` uses the value without the lock. Under PSO `ready` may be in memory before the value is. */
#include <assert.h>
#include <pthread.h>

int ready, value;
pthread_mutex_t lock = PTHREAD_MUTEX_INITIALIZER;

void *use(void *p)
{
  if (ready == 0) {
    pthread_mutex_lock(&lock);
    if (ready == 0) {
      value = 42;
      ready = 1;
    }
    pthread_mutex_unlock(&lock);
  }
  assert(value == 42);
  return 0;
}

int main(void)
{
  pthread_t a, b;
  pthread_create(&a, 0, use, 0);
  pthread_create(&b, 0, use, 0);
  pthread_join(a, 0);
  pthread_join(b, 0);
  return 0;
}
