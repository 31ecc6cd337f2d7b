/* Refuses memory: put before the C library (LD_PRELOAD), it counts the requests for memory and refuses the one whose number
   stands in NO_MEMORY_AT, from 1, and all behind it too where NO_MEMORY_ON is set. At the end it writes how many requests
   there were into the file named in NO_MEMORY_COUNT. It itself asks for no memory. */
#include <errno.h>
#include <fcntl.h>
#include <stddef.h>
#include <stdlib.h>
#include <unistd.h>

extern void *__libc_malloc(size_t);
extern void *__libc_calloc(size_t, size_t);
extern void *__libc_realloc(void *, size_t);
extern void *__libc_memalign(size_t, size_t);

static unsigned long long asked, at;
static int goes_on, is_ready;

/* whether the request is refused */
static int refused(void) {
  if (!is_ready) {
    const char *number = getenv("NO_MEMORY_AT");
    at = number ? strtoull(number, NULL, 10) : 0;
    goes_on = getenv("NO_MEMORY_ON") != NULL;
    is_ready = 1;
  }
  asked += 1;
  if (at != 0 && (asked == at || (goes_on && asked > at))) {
    errno = ENOMEM;
    return 1;
  }
  return 0;
}

void *malloc(size_t size) { return refused() ? NULL : __libc_malloc(size); }

void *calloc(size_t count, size_t size) { return refused() ? NULL : __libc_calloc(count, size); }

void *realloc(void *old, size_t size) { return size != 0 && refused() ? NULL : __libc_realloc(old, size); }

void *memalign(size_t alignment, size_t size) { return refused() ? NULL : __libc_memalign(alignment, size); }

void *aligned_alloc(size_t alignment, size_t size) { return memalign(alignment, size); }

int posix_memalign(void **place, size_t alignment, size_t size) {
  if (refused()) return ENOMEM;
  void *made = __libc_memalign(alignment, size);
  if (made == NULL) return ENOMEM;
  *place = made;
  return 0;
}

__attribute__((destructor)) static void tell(void) {
  const char *name = getenv("NO_MEMORY_COUNT");
  if (name == NULL) return;
  char digits[24];
  size_t first = sizeof digits;
  digits[--first] = '\n';
  unsigned long long left = asked;
  do {
    digits[--first] = (char)('0' + left % 10);
    left /= 10;
  } while (left != 0);
  int file = open(name, O_WRONLY | O_CREAT | O_TRUNC, 0644);
  if (file < 0) return;
  ssize_t written = write(file, digits + first, sizeof digits - first);
  (void)written;
  close(file);
}
