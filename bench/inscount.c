/* A plugin for QEMU's user emulation that counts guest instructions exactly, for machines where valgrind cannot run the x86-64
   program. For each pair of calls of the guest's functions count_on and count_off it prints one line, `region N`, with the
   instructions between, those of all callees included; and at the end `whole N`, with all that the program took. The plugin
   interface is declared by hand, since Debian ships no qemu-plugin.h; QEMU_API is its version number, which the emulator demands.

       cc -O2 -shared -fPIC -DQEMU_API=1 inscount.c -o inscount.so
       qemu-x86_64 -plugin ./inscount.so -d plugin program */
#include <inttypes.h>
#include <stddef.h>
#include <stdint.h>
#include <stdio.h>
#include <string.h>

#ifndef QEMU_API
#define QEMU_API 1
#endif

#define EXPORTED __attribute__((visibility("default")))

typedef uint64_t plugin_id;
struct qemu_plugin_tb;
struct qemu_plugin_insn;

size_t qemu_plugin_tb_n_insns(const struct qemu_plugin_tb *);
struct qemu_plugin_insn *qemu_plugin_tb_get_insn(const struct qemu_plugin_tb *, size_t);
const char *qemu_plugin_insn_symbol(const struct qemu_plugin_insn *);
void qemu_plugin_register_vcpu_tb_trans_cb(plugin_id, void (*)(plugin_id, struct qemu_plugin_tb *));
void qemu_plugin_register_vcpu_insn_exec_cb(struct qemu_plugin_insn *, void (*)(unsigned, void *), int, void *);
void qemu_plugin_register_atexit_cb(plugin_id, void (*)(plugin_id, void *), void *);
void qemu_plugin_outs(const char *);

EXPORTED int qemu_plugin_version = QEMU_API;

static uint64_t executed, at_start;

static void on_instruction(unsigned cpu, void *data) {
    (void)cpu, (void)data;
    executed++;
}

static void on_start(unsigned cpu, void *data) {
    (void)cpu, (void)data;
    at_start = executed;
}

static void say(const char *what, uint64_t count) {
    char line[64];
    snprintf(line, sizeof line, "%s %" PRIu64 "\n", what, count);
    qemu_plugin_outs(line);
}

static void on_end(unsigned cpu, void *data) {
    (void)cpu, (void)data;
    say("region", executed - at_start);
}

static void on_exit_of_all(plugin_id id, void *data) {
    (void)id, (void)data;
    say("whole", executed);
}

static void on_translated(plugin_id id, struct qemu_plugin_tb *block) {
    (void)id;
    for (size_t i = 0, n = qemu_plugin_tb_n_insns(block); i < n; i++) {
        struct qemu_plugin_insn *instruction = qemu_plugin_tb_get_insn(block, i);
        const char *symbol = i == 0 ? qemu_plugin_insn_symbol(instruction) : NULL; /* a function starts a block */
        if (symbol != NULL && strcmp(symbol, "count_on") == 0)
            qemu_plugin_register_vcpu_insn_exec_cb(instruction, on_start, 0, NULL);
        if (symbol != NULL && strcmp(symbol, "count_off") == 0)
            qemu_plugin_register_vcpu_insn_exec_cb(instruction, on_end, 0, NULL);
        qemu_plugin_register_vcpu_insn_exec_cb(instruction, on_instruction, 0, NULL);
    }
}

EXPORTED int qemu_plugin_install(plugin_id id, const void *info, int argc, char **argv) {
    (void)info, (void)argc, (void)argv;
    qemu_plugin_register_vcpu_tb_trans_cb(id, on_translated);
    qemu_plugin_register_atexit_cb(id, on_exit_of_all, NULL);
    return 0;
}
