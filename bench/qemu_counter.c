/* A plugin of qemu: counts the guest's instructions between two of its functions and writes one number for each time that both were passed, in order.
   Its words: begin=ADDRESS, end=ADDRESS, out=FILE. qemu's own header is in no package of Debian's: what is used of it is declared here. */
#include <inttypes.h>
#include <stdbool.h>
#include <stddef.h>
#include <stdio.h>
#include <stdlib.h>
#include <string.h>

typedef uint64_t qemu_plugin_id_t;
typedef struct qemu_info_t qemu_info_t;
struct qemu_plugin_tb;
struct qemu_plugin_insn;
enum qemu_plugin_cb_flags { QEMU_PLUGIN_CB_NO_REGS };
void qemu_plugin_register_vcpu_tb_trans_cb(qemu_plugin_id_t id, void (*translated)(qemu_plugin_id_t, struct qemu_plugin_tb *));
size_t qemu_plugin_tb_n_insns(const struct qemu_plugin_tb *block);
struct qemu_plugin_insn *qemu_plugin_tb_get_insn(const struct qemu_plugin_tb *block, size_t i);
uint64_t qemu_plugin_insn_vaddr(const struct qemu_plugin_insn *instruction);
void qemu_plugin_register_vcpu_insn_exec_cb(struct qemu_plugin_insn *instruction, void (*executed)(unsigned, void *), enum qemu_plugin_cb_flags flags, void *data);
void qemu_plugin_register_atexit_cb(qemu_plugin_id_t id, void (*ended)(qemu_plugin_id_t, void *), void *data);

__attribute__((visibility("default"))) int qemu_plugin_version = 1;

static uint64_t begin, end, counted;
static bool counting;
static FILE *out;

static void executed(unsigned cpu, void *address)
{
    (void)cpu;
    uint64_t at = (uint64_t)(uintptr_t)address;
    if (at == begin) {
        counting = true;
        counted = 0;
    } else if (at == end) {
        counting = false;
        fprintf(out, "%" PRIu64 "\n", counted);
    } else if (counting) {
        counted++;
    }
}

static void translated(qemu_plugin_id_t id, struct qemu_plugin_tb *block)
{
    (void)id;
    size_t n = qemu_plugin_tb_n_insns(block);
    for (size_t i = 0; i < n; i++) {
        struct qemu_plugin_insn *instruction = qemu_plugin_tb_get_insn(block, i);
        void *address = (void *)(uintptr_t)qemu_plugin_insn_vaddr(instruction);
        qemu_plugin_register_vcpu_insn_exec_cb(instruction, executed, QEMU_PLUGIN_CB_NO_REGS, address);
    }
}

static void ended(qemu_plugin_id_t id, void *data)
{
    (void)id;
    (void)data;
    fclose(out);
}

__attribute__((visibility("default"))) int qemu_plugin_install(qemu_plugin_id_t id, const qemu_info_t *info, int words, char **word)
{
    (void)info;
    for (int i = 0; i < words; i++) {
        if (!strncmp(word[i], "begin=", 6)) {
            begin = strtoull(word[i] + 6, NULL, 0);
        } else if (!strncmp(word[i], "end=", 4)) {
            end = strtoull(word[i] + 4, NULL, 0);
        } else if (!strncmp(word[i], "out=", 4)) {
            out = fopen(word[i] + 4, "w");
        }
    }
    if (!begin || !end || !out) {
        return 1;
    }
    qemu_plugin_register_vcpu_tb_trans_cb(id, translated);
    qemu_plugin_register_atexit_cb(id, ended, NULL);
    return 0;
}
