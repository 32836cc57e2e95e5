/* Refuses one allocation of the program that it is loaded into: that whose number, from 1, REFUSE has. It then makes the
   file that REFUSED names. For glibc. */
#include <errno.h>
#include <fcntl.h>
#include <stdlib.h>
#include <unistd.h>

extern void *__libc_malloc (size_t size);
extern void *__libc_calloc (size_t count, size_t size);
extern void *__libc_realloc (void *old, size_t size);
extern void *__libc_memalign (size_t align, size_t size);

static long asked, wanted;

static int
is_refused (void)
{
  const char *path = getenv ("REFUSED");
  if (__atomic_add_fetch (&asked, 1, __ATOMIC_SEQ_CST) != wanted)
    return 0;
  close (open (path, O_WRONLY | O_CREAT, 0600));
  return 1;
}

__attribute__ ((constructor)) static void
begin (void)
{
  const char *text = getenv ("REFUSE");
  asked            = 0;
  wanted           = text && getenv ("REFUSED") ? atol (text) : 0;
}

void *
malloc (size_t size)
{
  return is_refused () ? NULL : __libc_malloc (size);
}

void *
calloc (size_t count, size_t size)
{
  return is_refused () ? NULL : __libc_calloc (count, size);
}

void *
realloc (void *old, size_t size)
{
  return is_refused () ? NULL : __libc_realloc (old, size);
}

void *
aligned_alloc (size_t align, size_t size)
{
  return is_refused () ? NULL : __libc_memalign (align, size);
}

int
posix_memalign (void **to, size_t align, size_t size)
{
  *to = is_refused () ? NULL : __libc_memalign (align, size);
  return *to ? 0 : ENOMEM;
}
