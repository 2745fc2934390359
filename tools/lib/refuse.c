/* Refuses one request for memory of the program that it is loaded into, by LD_PRELOAD. tools/memory compiles it.
 *
 * REFUSE_REQUEST is the request's number, counted from 1 over all threads; with REFUSE_LASTING set all later ones are
 * refused too. At each refusal one byte is written to the descriptor REFUSE_TELL. A thread to start is a request like
 * any other, since its stack is memory. */
#define _GNU_SOURCE
#include <dlfcn.h>
#include <errno.h>
#include <pthread.h>
#include <stdatomic.h>
#include <stddef.h>
#include <stdlib.h>
#include <unistd.h>

extern void *__libc_malloc(size_t);
extern void *__libc_calloc(size_t, size_t);
extern void *__libc_realloc(void *, size_t);
extern void *__libc_memalign(size_t, size_t);

typedef int starting(pthread_t *, const pthread_attr_t *, void *(*)(void *), void *);

static atomic_long requests;
static long refused;
static int lasting, tell;
static starting *start;

__attribute__((constructor)) static void read_the_environment(void) {
  const char *number = getenv("REFUSE_REQUEST"), *place = getenv("REFUSE_TELL");
  tell = place ? atoi(place) : -1;
  lasting = getenv("REFUSE_LASTING") != NULL;
  start = (starting *)dlsym(RTLD_NEXT, "pthread_create");
  atomic_store(&requests, 0);
  refused = number ? atol(number) : 0;
}

static int is_refused(void) {
  long number = atomic_fetch_add(&requests, 1) + 1;
  if (refused == 0 || number < refused || (number > refused && !lasting))
    return 0;
  if (tell >= 0 && write(tell, "r", 1) != 1)
    tell = -1;
  errno = ENOMEM;
  return 1;
}

void *malloc(size_t size) { return is_refused() ? NULL : __libc_malloc(size); }

void *calloc(size_t count, size_t size) { return is_refused() ? NULL : __libc_calloc(count, size); }

void *realloc(void *place, size_t size) { return is_refused() ? NULL : __libc_realloc(place, size); }

void *memalign(size_t alignment, size_t size) { return is_refused() ? NULL : __libc_memalign(alignment, size); }

void *aligned_alloc(size_t alignment, size_t size) { return memalign(alignment, size); }

int posix_memalign(void **place, size_t alignment, size_t size) {
  void *found = memalign(alignment, size);
  if (found == NULL)
    return ENOMEM;
  *place = found;
  return 0;
}

int pthread_create(pthread_t *thread, const pthread_attr_t *attributes, void *(*routine)(void *), void *argument) {
  return is_refused() ? EAGAIN : start(thread, attributes, routine, argument);
}
