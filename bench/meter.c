#include "meter.h"

#include <stdint.h>
#include <string.h>
#include <ucontext.h>

#include "mark.h"

void do_marked(job *all) {
  all();
  mark();
  mark();
  all();
  mark();
}

enum { STACK = 1 << 17, PAINT = 0xA5 };

size_t painted_after(job *all) {
  static uint8_t stack[STACK];
  ucontext_t here, there;
  memset(stack, PAINT, STACK);
  getcontext(&there);
  there.uc_stack.ss_sp = stack;
  there.uc_stack.ss_size = STACK;
  there.uc_link = &here;
  makecontext(&there, all, 0);
  swapcontext(&here, &there);
  size_t painted = 0;
  while (stack[painted] == PAINT) painted++;
  return painted;
}
