// Loaded before the C library: refuses some of the program's calls for memory, by their number from 1.
// REFUSE_FROM and REFUSE_TO name the first and the last that is refused; at the end the number of calls goes to the descriptor REFUSE_COUNT.
#include <stdio.h>
#include <stdlib.h>
#include <unistd.h>

extern void *__libc_malloc(size_t size);
extern void *__libc_calloc(size_t count, size_t size);
extern void *__libc_realloc(void *old, size_t size);

static unsigned long asked, from, to;

static unsigned long number(const char *name) {
  const char *text = getenv(name);
  return text ? strtoul(text, NULL, 10) : 0;
}

__attribute__((constructor)) static void begin(void) {
  from = number("REFUSE_FROM");
  to = number("REFUSE_TO");
  asked = 0;
}

__attribute__((destructor)) static void end(void) {
  char text[32];
  int length = snprintf(text, sizeof text, "%lu\n", asked);
  if (getenv("REFUSE_COUNT") && write((int)number("REFUSE_COUNT"), text, (size_t)length) < 0) _exit(120);
}

static int is_refused(void) {
  asked += 1;
  return from <= asked && asked <= to;
}

void *malloc(size_t size) { return is_refused() ? NULL : __libc_malloc(size); }
void *calloc(size_t count, size_t size) { return is_refused() ? NULL : __libc_calloc(count, size); }
void *realloc(void *old, size_t size) { return is_refused() ? NULL : __libc_realloc(old, size); }
