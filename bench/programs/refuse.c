/* Refuses one request for memory of a program that is run with this library before all others: that of the number in REFUSE, the
 * first being 1. Then it makes the file that REFUSED names. Requests of the C library are counted too, those of the loader before
 * it is ready are not. */
#include <errno.h>
#include <fcntl.h>
#include <stdatomic.h>
#include <stdlib.h>
#include <unistd.h>

extern void *__libc_malloc(size_t size);

static atomic_long requests;
static long refused;
static const char *mark;

__attribute__((constructor)) static void begin(void) {
  const char *number = getenv("REFUSE");
  mark = getenv("REFUSED");
  if (number && mark) refused = atol(number);
}

void *malloc(size_t size) {
  if (refused && atomic_fetch_add(&requests, 1) + 1 == refused) {
    int file = open(mark, O_WRONLY | O_CREAT | O_CLOEXEC, 0600);
    if (file >= 0) close(file);
    errno = ENOMEM;
    return NULL;
  }
  return __libc_malloc(size);
}
