/* Only a thread's last write can stay: the second assertion may fail, and the first too. */
#include <assert.h>
#include <pthread.h>

int cell;

void *twice(void *p) { cell = 7; cell = 5; return 0; }
void *once(void *p) { cell = 4; return 0; }

int main() {
  pthread_t u, v, w;
  pthread_create(&u, 0, once, 0);
  pthread_create(&v, 0, twice, 0);
  pthread_create(&w, 0, once, 0);
  pthread_join(u, 0);
  pthread_join(v, 0);
  pthread_join(w, 0);
  assert(cell == 4);
  assert(cell == 5);
  return 0;
}
