// Loaded before the C library: the call to an allocating function that has the number FAIL_AT finds no memory, and
// the file FAIL_MARK is made then.
#define _GNU_SOURCE
#include <dlfcn.h>
#include <errno.h>
#include <fcntl.h>
#include <stdatomic.h>
#include <stdlib.h>
#include <unistd.h>

static atomic_long calls;

static int fails(void) {
  const char *at = getenv("FAIL_AT");
  long call = atomic_fetch_add(&calls, 1) + 1;
  if (at == NULL || call != atol(at)) {
    return 0;
  }
  const char *mark = getenv("FAIL_MARK");
  if (mark != NULL) {
    close(open(mark, O_WRONLY | O_CREAT, 0644));
  }
  errno = ENOMEM;
  return 1;
}

void *malloc(size_t size) {
  static void *(*real)(size_t);
  if (real == NULL) {
    real = dlsym(RTLD_NEXT, "malloc");
  }
  return fails() ? NULL : real(size);
}

void *realloc(void *old, size_t size) {
  static void *(*real)(void *, size_t);
  if (real == NULL) {
    real = dlsym(RTLD_NEXT, "realloc");
  }
  return fails() ? NULL : real(old, size);
}

void *aligned_alloc(size_t alignment, size_t size) {
  static void *(*real)(size_t, size_t);
  if (real == NULL) {
    real = dlsym(RTLD_NEXT, "aligned_alloc");
  }
  return fails() ? NULL : real(alignment, size);
}

int posix_memalign(void **made, size_t alignment, size_t size) {
  static int (*real)(void **, size_t, size_t);
  if (real == NULL) {
    real = dlsym(RTLD_NEXT, "posix_memalign");
  }
  return fails() ? ENOMEM : real(made, alignment, size);
}
