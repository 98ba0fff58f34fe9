/* A plugin of QEMU that counts the instructions of each call of irig.h, and prints the most of each:
 * what runs between the first instruction of such a function and the one behind its call, with all
 * that it calls. Its declarations are those of qemu-plugin.h, version 1 of the interface, which
 * Debian does not ship. */
#include <inttypes.h>
#include <stdbool.h>
#include <stdio.h>
#include <stdlib.h>
#include <string.h>

typedef uint64_t qemu_plugin_id_t;
struct qemu_plugin_tb;
struct qemu_plugin_insn;
typedef void (*when_translated)(qemu_plugin_id_t, struct qemu_plugin_tb *);
typedef void (*when_executed)(unsigned, void *);
typedef void (*when_ended)(qemu_plugin_id_t, void *);
void qemu_plugin_register_vcpu_tb_trans_cb(qemu_plugin_id_t, when_translated);
void qemu_plugin_register_vcpu_insn_exec_cb(struct qemu_plugin_insn *, when_executed, int, void *);
void qemu_plugin_register_atexit_cb(qemu_plugin_id_t, when_ended, void *);
size_t qemu_plugin_tb_n_insns(const struct qemu_plugin_tb *);
struct qemu_plugin_insn *qemu_plugin_tb_get_insn(const struct qemu_plugin_tb *, size_t);
uint64_t qemu_plugin_insn_vaddr(const struct qemu_plugin_insn *);
size_t qemu_plugin_insn_size(const struct qemu_plugin_insn *);
const char *qemu_plugin_insn_symbol(const struct qemu_plugin_insn *);
void qemu_plugin_outs(const char *);

__attribute__((visibility("default"))) int qemu_plugin_version = 1;

enum { MOST = 64 };

typedef struct call {
    char name[40];
    uint64_t start, most;
} call;

typedef struct instruction {
    uint64_t address, next;
    call *begins; /* the call whose first instruction this is */
} instruction;

static call calls[MOST];
static int known;
static call *inside; /* the call that runs, or null */
static uint64_t back, count;
static const instruction *last;

static call *call_at(const char *name, uint64_t address) {
    /* In the linker's names the layout stands behind those of calls alone. */
    const char *end = name ? strstr(name, "_layout_") : NULL;
    char plain[40];
    if (!end || known == MOST) return NULL;
    snprintf(plain, sizeof plain, "%.*s", (int)(end - name), name);
    for (int i = 0; i < known; i++)
        if (strcmp(calls[i].name, plain) == 0) return calls[i].start == address ? &calls[i] : NULL;
    call *made = &calls[known++];
    memcpy(made->name, plain, sizeof plain);
    made->start = address;
    return made;
}

static void on_instruction(unsigned processor, void *word) {
    const instruction *now = word;
    (void)processor;
    if (inside && now->address == back) {
        if (count > inside->most) inside->most = count;
        inside = NULL;
    }
    if (!inside && now->begins && last) {
        inside = now->begins;
        back = last->next;
        count = 0;
    }
    count++;
    last = now;
}

static void on_translation(qemu_plugin_id_t id, struct qemu_plugin_tb *block) {
    (void)id;
    for (size_t i = 0; i < qemu_plugin_tb_n_insns(block); i++) {
        struct qemu_plugin_insn *insn = qemu_plugin_tb_get_insn(block, i);
        instruction *made = malloc(sizeof *made);
        made->address = qemu_plugin_insn_vaddr(insn);
        made->next = made->address + qemu_plugin_insn_size(insn);
        made->begins = call_at(qemu_plugin_insn_symbol(insn), made->address);
        qemu_plugin_register_vcpu_insn_exec_cb(insn, on_instruction, 0, made);
    }
}

static void on_end(qemu_plugin_id_t id, void *word) {
    (void)id;
    (void)word;
    for (int i = 0; i < known; i++) {
        char line[80];
        snprintf(line, sizeof line, "%.39s %" PRIu64 "\n", calls[i].name, calls[i].most);
        qemu_plugin_outs(line);
    }
}

__attribute__((visibility("default"))) int
qemu_plugin_install(qemu_plugin_id_t id, const void *info, int argc, char **argv) {
    (void)info;
    (void)argc;
    (void)argv;
    qemu_plugin_register_vcpu_tb_trans_cb(id, on_translation);
    qemu_plugin_register_atexit_cb(id, on_end, NULL);
    return 0;
}
