// A plugin for qemu-x86_64 that says, when the emulated program ends, how many instructions it executed, how often it entered
// each function that an argument `NAME=HEX` gives the address of (as the program's symbol table has it), and how far below its
// first stack access the lowest one lay. The declarations are those of qemu's plugin interface, version 1.
#include <inttypes.h>
#include <stddef.h>
#include <stdio.h>

typedef uint64_t plugin_id;
struct qemu_plugin_tb;
struct qemu_plugin_insn;
enum flags { NO_REGISTERS };
enum access { READ = 1, WRITE, BOTH };
enum operation { ADD };

extern void qemu_plugin_register_vcpu_tb_trans_cb(plugin_id, void (*)(plugin_id, struct qemu_plugin_tb *));
extern void qemu_plugin_register_vcpu_tb_exec_inline(struct qemu_plugin_tb *, enum operation, void *, uint64_t);
extern void qemu_plugin_register_vcpu_mem_cb(struct qemu_plugin_insn *, void (*)(unsigned, uint32_t, uint64_t, void *), enum flags,
                                             enum access, void *);
extern void qemu_plugin_register_atexit_cb(plugin_id, void (*)(plugin_id, void *), void *);
extern size_t qemu_plugin_tb_n_insns(const struct qemu_plugin_tb *);
extern uint64_t qemu_plugin_tb_vaddr(const struct qemu_plugin_tb *);
extern struct qemu_plugin_insn *qemu_plugin_tb_get_insn(const struct qemu_plugin_tb *, size_t);

#define PUBLIC __attribute__((visibility("default")))
PUBLIC int qemu_plugin_version = 1;

// Where qemu puts a position independent program.
static const uint64_t base = 0x4000000000;
// A stack of 8 MiB at the most.
static const uint64_t reach = 8 << 20;

struct function {
    char name[16];
    uint64_t entry, entries;
};

static struct function functions[4];
static int given;
static uint64_t instructions, top, lowest;

static void accessed(unsigned cpu, uint32_t info, uint64_t address, void *data) {
    if (top == 0) {
        top = lowest = address;
    }
    if (address < lowest && top - address < reach) {
        lowest = address;
    }
}

static void translated(plugin_id id, struct qemu_plugin_tb *block) {
    size_t n = qemu_plugin_tb_n_insns(block);
    qemu_plugin_register_vcpu_tb_exec_inline(block, ADD, &instructions, n);
    for (struct function *f = functions; f < functions + given; f++) {
        if (qemu_plugin_tb_vaddr(block) == base + f->entry) {
            qemu_plugin_register_vcpu_tb_exec_inline(block, ADD, &f->entries, 1);
        }
    }
    for (size_t k = 0; k < n; k++) {
        qemu_plugin_register_vcpu_mem_cb(qemu_plugin_tb_get_insn(block, k), accessed, NO_REGISTERS, BOTH, NULL);
    }
}

static void ended(plugin_id id, void *data) {
    fprintf(stderr, "%" PRIu64 " instructions, ", instructions);
    for (struct function *f = functions; f < functions + given; f++) {
        fprintf(stderr, "%" PRIu64 " %s, ", f->entries, f->name);
    }
    fprintf(stderr, "%" PRIu64 " bytes of stack\n", top - lowest);
}

PUBLIC int qemu_plugin_install(plugin_id id, const void *info, int argc, char **argv) {
    for (int k = 0; k < argc; k++) {
        if (given == 4 || sscanf(argv[k], "%15[^=]=%" SCNx64, functions[given].name, &functions[given].entry) != 2) {
            fprintf(stderr, "count: up to 4 arguments NAME=HEX, not %s\n", argv[k]);
            return 1;
        }
        given++;
    }
    qemu_plugin_register_vcpu_tb_trans_cb(id, translated);
    qemu_plugin_register_atexit_cb(id, ended, NULL);
    return 0;
}
