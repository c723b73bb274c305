/* A plugin for qemu's user emulator: how many instructions a program executes, as a number in the emulator's log when
   it ends, and before that, as a mark, whenever it asks for its parent's process id, which no program here does for
   any other reason. The numbers are the same at every run and on every machine. Debian has no header for plugins: the
   prototypes are those of plugin interface 1. */
#include <inttypes.h>
#include <stddef.h>
#include <stdint.h>
#include <stdio.h>

typedef uint64_t plugin_id;
typedef struct qemu_plugin_tb block; /* instructions that are translated, and executed, one after another */
typedef struct qemu_plugin_insn instruction;
enum { ADD = 0, GETPPID = 110 };
typedef void on_syscall(plugin_id id, unsigned cpu, int64_t number, uint64_t a1, uint64_t a2, uint64_t a3, uint64_t a4,
                        uint64_t a5, uint64_t a6, uint64_t a7, uint64_t a8);

void qemu_plugin_register_vcpu_tb_trans_cb(plugin_id id, void translated(plugin_id id, block *b));
void qemu_plugin_register_atexit_cb(plugin_id id, void ended(plugin_id id, void *unused), void *unused);
size_t qemu_plugin_tb_n_insns(const block *b);
instruction *qemu_plugin_tb_get_insn(const block *b, size_t k);
void qemu_plugin_register_vcpu_insn_exec_inline(instruction *i, int operation, void *number, uint64_t operand);
void qemu_plugin_register_vcpu_syscall_cb(plugin_id id, on_syscall called);
void qemu_plugin_outs(const char *text);

int qemu_plugin_version = 1;

static uint64_t executed;

/* Each instruction by itself: a block that ends where the next instruction crosses a page says that it has that one
   too, so counts by blocks depend on where the code lies. */
static void count_block(plugin_id id, block *b) {
  (void)id;
  for (size_t k = 0; k < qemu_plugin_tb_n_insns(b); k++)
    qemu_plugin_register_vcpu_insn_exec_inline(qemu_plugin_tb_get_insn(b, k), ADD, &executed, 1);
}

static void tell(plugin_id id, void *unused) {
  char text[32];
  (void)id, (void)unused;
  snprintf(text, sizeof text, "%" PRIu64 "\n", executed);
  qemu_plugin_outs(text);
}

static void mark(plugin_id id, unsigned cpu, int64_t number, uint64_t a1, uint64_t a2, uint64_t a3, uint64_t a4,
                 uint64_t a5, uint64_t a6, uint64_t a7, uint64_t a8) {
  (void)cpu, (void)a1, (void)a2, (void)a3, (void)a4, (void)a5, (void)a6, (void)a7, (void)a8;
  if (number == GETPPID) tell(id, NULL);
}

int qemu_plugin_install(plugin_id id, const void *info, int argc, char **argv) {
  (void)info, (void)argc, (void)argv;
  qemu_plugin_register_vcpu_tb_trans_cb(id, count_block);
  qemu_plugin_register_vcpu_syscall_cb(id, mark);
  qemu_plugin_register_atexit_cb(id, tell, NULL);
  return 0;
}
