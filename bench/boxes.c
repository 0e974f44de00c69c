#include "box.h"

int main(void) {
  uint32_t sum = 0, i = 0, x = 0;
  while (i < 5000000) {
    uint32_t *box = box_new(i);
    x = i + 7;
    *box = x;
    x = box_look(box);
    sum += x;
    x = box_look(box);
    free(box);
    sum += x;
    box = box_new(i);
    free(box);
    i += 1;
  }
  printf("%u\n", sum);
}
