/* Refuses one allocation of a program: the one whose number REFUSE names, counted from 1. Writes how many there were to the
   standard error. To be preloaded into a program that takes its memory by malloc and realloc. */
#include <stddef.h>
#include <stdio.h>
#include <stdlib.h>
#include <unistd.h>

extern void *__libc_malloc(size_t);
extern void *__libc_realloc(void *, size_t);

static int started;
static long count;
static long refused;

static int refuses(void) { return started && ++count == refused; }

__attribute__((constructor)) static void start(void) {
  const char *number = getenv("REFUSE");
  refused = number ? atol(number) : 0;
  started = 1;
}

__attribute__((destructor)) static void end(void) {
  char text[32];
  int length;
  started = 0;
  length = snprintf(text, sizeof text, "%ld\n", count);
  if (write(2, text, (size_t)length) < 0) _exit(2);
}

void *malloc(size_t size) { return refuses() ? NULL : __libc_malloc(size); }

void *realloc(void *old, size_t size) { return refuses() ? NULL : __libc_realloc(old, size); }
