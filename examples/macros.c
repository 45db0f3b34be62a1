/* Comments, macros, blanks and the words that say nothing here. */
#include <assert.h>
#include <pthread.h>
#define ONE 0x1

/* the cell */ volatile int	x ;

void*a(void*p){x=ONE;return NULL;} // writes 1
void *b ( void *p ) { x = 2 ; return 0 ; }

int main(void)
{ pthread_t s ,t;
  pthread_create(&s, NULL, a, NULL); pthread_create(&t, 0, b, 0);
  pthread_join(s, NULL); pthread_join(t, 0);
  /* fails */ assert(x==01); return 0; }
