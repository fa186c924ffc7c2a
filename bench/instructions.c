/* A plugin for QEMU's emulator of a program (its interface 1): how many instructions the program took, on standard error at its end. It needs no
   header of QEMU's; these are the six names that it uses. */
#include <inttypes.h>
#include <stdio.h>

struct block;
int qemu_plugin_version = 1;
size_t qemu_plugin_tb_n_insns(const struct block *);
void qemu_plugin_register_vcpu_tb_trans_cb(uint64_t, void (*)(uint64_t, struct block *));
void qemu_plugin_register_vcpu_tb_exec_inline(struct block *, int, void *, uint64_t);
void qemu_plugin_register_atexit_cb(uint64_t, void (*)(uint64_t, void *), void *);

static uint64_t taken;

static void translated(uint64_t plugin, struct block *block) {
    qemu_plugin_register_vcpu_tb_exec_inline(block, 0, &taken, qemu_plugin_tb_n_insns(block)); /* 0: add */
}

static void ended(uint64_t plugin, void *unused) { fprintf(stderr, "%" PRIu64 " instructions\n", taken); }

int qemu_plugin_install(uint64_t plugin, const void *about, int words, char **word) {
    qemu_plugin_register_vcpu_tb_trans_cb(plugin, translated);
    qemu_plugin_register_atexit_cb(plugin, ended, 0);
    return 0;
}
