// TCG plugin for qemu-user: the guest instructions of a whole run, written to o=FILE as one number. Needs no header of QEMU: the prototypes are
// those of plugin API version 1 (QEMU 7.2).
#include <stddef.h>
#include <stdint.h>
#include <stdio.h>
typedef uint64_t pid;
struct tb;
struct insn;
int qemu_plugin_version = 1;
void qemu_plugin_register_vcpu_tb_trans_cb(pid, void (*)(pid, struct tb *));
void qemu_plugin_register_atexit_cb(pid, void (*)(pid, void *), void *);
size_t qemu_plugin_tb_n_insns(const struct tb *);
struct insn *qemu_plugin_tb_get_insn(const struct tb *, size_t);
void qemu_plugin_register_vcpu_insn_exec_inline(struct insn *, int op, void *ptr, uint64_t imm);

static uint64_t insns;
static FILE *out;

static void trans(pid id, struct tb *tb) {
    (void)id;
    for (size_t i = 0, n = qemu_plugin_tb_n_insns(tb); i < n; i++)
        qemu_plugin_register_vcpu_insn_exec_inline(qemu_plugin_tb_get_insn(tb, i), 0, &insns, 1);
}

static void end(pid id, void *p) {
    (void)id;
    (void)p;
    fprintf(out, "%llu\n", (unsigned long long)insns);
    fclose(out);
}

int qemu_plugin_install(pid id, const void *info, int argc, char **argv) {
    (void)info;
    for (int i = 0; i < argc; i++)
        if (argv[i][0] == 'o' && argv[i][1] == '=') out = fopen(argv[i] + 2, "w");
    qemu_plugin_register_vcpu_tb_trans_cb(id, trans);
    qemu_plugin_register_atexit_cb(id, end, 0);
    return out == 0;
}
