/* count.c: a plugin for the emulator qemu-x86_64 that counts the instructions a program executes, and writes the count
 * to the file given as `out=FILE`.
 *
 * Each instruction is counted by itself. Counting whole translated blocks is quicker and wrong: a block's length takes
 * in an instruction that crosses into the next page though it is not part of the block. */
#include <inttypes.h>
#include <stddef.h>
#include <stdint.h>
#include <stdio.h>
#include <string.h>

/* The header of this interface is not packaged everywhere; this part of it has been the same in all versions. */
typedef uint64_t qemu_plugin_id_t;
struct qemu_plugin_tb;
struct qemu_plugin_insn;
enum qemu_plugin_cb_flags { QEMU_PLUGIN_CB_NO_REGS };
void qemu_plugin_register_vcpu_tb_trans_cb(qemu_plugin_id_t id, void (*)(qemu_plugin_id_t, struct qemu_plugin_tb *));
void qemu_plugin_register_vcpu_insn_exec_cb(struct qemu_plugin_insn *insn, void (*)(unsigned, void *),
                                            enum qemu_plugin_cb_flags flags, void *userdata);
void qemu_plugin_register_atexit_cb(qemu_plugin_id_t id, void (*)(qemu_plugin_id_t, void *), void *userdata);
size_t qemu_plugin_tb_n_insns(const struct qemu_plugin_tb *tb);
struct qemu_plugin_insn *qemu_plugin_tb_get_insn(const struct qemu_plugin_tb *tb, size_t index);

/* The emulator takes a plugin only if it knows the version that it was built for. */
__attribute__((visibility("default"))) int qemu_plugin_version = VERSION;

static uint64_t executed;
static const char *out;

static void execute(unsigned processor, void *userdata) {
    (void)processor, (void)userdata;
    executed++;
}

static void translate(qemu_plugin_id_t id, struct qemu_plugin_tb *block) {
    (void)id;
    for (size_t i = 0; i < qemu_plugin_tb_n_insns(block); i++) {
        struct qemu_plugin_insn *instruction = qemu_plugin_tb_get_insn(block, i);
        qemu_plugin_register_vcpu_insn_exec_cb(instruction, execute, QEMU_PLUGIN_CB_NO_REGS, NULL);
    }
}

static void finish(qemu_plugin_id_t id, void *userdata) {
    (void)id, (void)userdata;
    FILE *file = fopen(out, "w");
    if (file == NULL) return;
    fprintf(file, "%" PRIu64 "\n", executed);
    fclose(file);
}

__attribute__((visibility("default"))) int qemu_plugin_install(qemu_plugin_id_t id, const void *info, int argc,
                                                               char **argv) {
    (void)info;
    if (argc != 1 || strncmp(argv[0], "out=", 4) != 0) return -1;
    out = argv[0] + 4;
    qemu_plugin_register_vcpu_tb_trans_cb(id, translate);
    qemu_plugin_register_atexit_cb(id, finish, NULL);
    return 0;
}
