/* Message passing: is the data there once the flag is seen? */
#include <assert.h>
#include <pthread.h>

int data, flag, seen, got;

void *writer(void *p) { data = 1; flag = 1; return 0; }
void *reader(void *p) { seen = flag; got = data; return 0; }

int main() {
  pthread_t t[2];
  pthread_create(&t[0], 0, writer, 0);
  pthread_create(&t[1], 0, reader, 0);
  pthread_join(t[0], 0);
  pthread_join(t[1], 0);
  assert(!(seen == 1 && got == 0));
  return 0;
}
