/* Linked for a Cortex-M: an access to memory that is not aligned stops the program from its start on, as firmware may
   have it (Armv7-M, configuration and control register, UNALIGN_TRP). */
#include <stdint.h>

enum { CONFIGURATION_AND_CONTROL = 0xE000ED14, UNALIGN_TRP = 8 };

__attribute__((constructor)) static void stop_unaligned(void) {
  *(volatile uint32_t *)CONFIGURATION_AND_CONTROL |= UNALIGN_TRP;
}
