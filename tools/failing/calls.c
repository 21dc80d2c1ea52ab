/* Makes the N-th call of one kind fail in a program: an allocation, a read of the input or a write of the
   output, as FAIL says (alloc, read or write) and FAIL_AT says N. Writes at the end how many calls of that
   kind there were into the file that COUNT_TO names, whether the program returns from main or calls _exit.
   Loaded before libc by LD_PRELOAD. */
#define _GNU_SOURCE
#include <dlfcn.h>
#include <errno.h>
#include <stdatomic.h>
#include <stdio.h>
#include <stdlib.h>
#include <string.h>
#include <sys/syscall.h>
#include <unistd.h>

static _Atomic unsigned long made;  /* over all threads */
static unsigned long fail_at;
static char kind;
static void *(*next_malloc)(size_t);
static void *(*next_realloc)(void *, size_t);
static ssize_t (*next_read)(int, void *, size_t);
static ssize_t (*next_write)(int, const void *, size_t);

__attribute__((constructor)) static void begin(void) {
  next_malloc = (void *(*)(size_t))dlsym(RTLD_NEXT, "malloc");
  next_realloc = (void *(*)(void *, size_t))dlsym(RTLD_NEXT, "realloc");
  next_read = (ssize_t (*)(int, void *, size_t))dlsym(RTLD_NEXT, "read");
  next_write = (ssize_t (*)(int, const void *, size_t))dlsym(RTLD_NEXT, "write");
  const char *which = getenv("FAIL"), *at = getenv("FAIL_AT");
  fail_at = at ? strtoul(at, NULL, 10) : 0;
  made = 0;
  kind = which ? which[0] : 0;
}

__attribute__((destructor)) static void end(void) {
  const char *to = getenv("COUNT_TO");
  unsigned long count = made;
  kind = 0;
  FILE *file = to ? fopen(to, "w") : NULL;
  if (file) {
    fprintf(file, "%lu\n", count);
    fclose(file);
  }
}

void _exit(int status) {
  end();
  for (;;) syscall(SYS_exit_group, status);
}

static int fails(char of, int error) {
  if (kind != of || atomic_fetch_add(&made, 1) + 1 != fail_at) return 0;
  errno = error;
  return 1;
}

void *malloc(size_t size) {
  if (!next_malloc) begin();
  return fails('a', ENOMEM) ? NULL : next_malloc(size);
}

void *realloc(void *old, size_t size) {
  if (!next_realloc) begin();
  return fails('a', ENOMEM) ? NULL : next_realloc(old, size);
}

ssize_t read(int file, void *into, size_t most) {
  if (!next_read) begin();
  return file == 0 && fails('r', EIO) ? -1 : next_read(file, into, most);
}

ssize_t write(int file, const void *from, size_t most) {
  if (!next_write) begin();
  return file == 1 && fails('w', EIO) ? -1 : next_write(file, from, most);
}
