#include "box.h"

static __attribute__((noinline, noclone)) uint32_t bump(uint32_t *box) {
  *box = box_look(box) + 1;
  return 0;
}

int main(void) {
  uint32_t *box = box_new(0);
  for (uint32_t i = 0; i < 10000000; i += 1) bump(box);
  printf("%u\n", *box);
  free(box);
}
