#include <stdint.h>
#include <stdio.h>

static __attribute__((noinline, noclone)) uint32_t fib(uint32_t n) {
  if (n < 2) return n;
  return fib(n - 1) + fib(n - 2);
}

int main(void) {
  printf("%u\n", fib(33));
}
