/* Two writers and two readers: may the readers see the writes in different orders? Under none of the models, which all have one memory. */
#include <assert.h>
#include <pthread.h>

int x, y;
int first_x, then_y, first_y, then_x;

void *write_x(void *p) { x = 1; return 0; }
void *write_y(void *p) { y = 1; return 0; }
void *read_x_first(void *p) { first_x = x; then_y = y; return 0; }
void *read_y_first(void *p) { first_y = y; then_x = x; return 0; }

int main(void)
{
  pthread_t a, b, c, d;
  pthread_create(&a, 0, write_x, 0);
  pthread_create(&b, 0, write_y, 0);
  pthread_create(&c, 0, read_x_first, 0);
  pthread_create(&d, 0, read_y_first, 0);
  pthread_join(a, 0);
  pthread_join(b, 0);
  pthread_join(c, 0);
  pthread_join(d, 0);
  assert(!(first_x == 1 && then_y == 0 && first_y == 1 && then_x == 0));
  return 0;
}
