#include <stdint.h>
#include <stdio.h>
#include <stdlib.h>

// A box that the compiler cannot see through: else it would leave out malloc, free and the loop.
static inline void *seen(void *box) {
  __asm__ volatile("" : "+r"(box) : : "memory");
  return box;
}

static inline uint32_t *box_new(uint32_t number) {
  uint32_t *box = seen(malloc(sizeof *box));
  if (!box) abort();
  *box = number;
  return seen(box);
}

static inline uint32_t box_look(uint32_t *box) {
  return *(uint32_t *)seen(box);
}
