#include <stdint.h>
#include <stdio.h>

int main(void) {
  uint32_t sum = 0, i = 0, x = 0;
  while (i < 10000000) {
    x = x * 1664525 + 1013904223;
    if (x < 2147483648u) sum += x; else sum -= i;
    i += 1;
  }
  printf("%u\n", sum);
}
