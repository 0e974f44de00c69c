#include "box.h"

static void *box_of(void *inner) {
  void **box = seen(malloc(sizeof *box));
  if (!box) abort();
  *box = inner;
  return seen(box);
}

static void box_drop(void *box, int kind) {
  if (kind > 1) box_drop(*(void **)seen(box), kind - 1);
  free(box);
}

int main(void) {
  uint32_t sum = 0;
  for (uint32_t i = 0; i < 2000000; i += 1) {
    void *box = box_new(i);
    for (int kind = 2; kind <= 8; kind += 1) box = box_of(box);
    box_drop(box, 8);
    sum += i;
  }
  printf("%u\n", sum);
}
