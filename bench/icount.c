/* A plugin for qemu's user mode (plugin API version 1, qemu 7.2) that counts the instructions which the emulated program executes.
   The program marks a stretch by two calls of getpriority with the first argument MARK and a number as the second; qemu lets such a call
   fail. At the second one a line "NUMBER COUNT" goes to standard error, and at the end of the program a line "all COUNT".
   Debian has no header for plugins, so the few functions of qemu's are declared here. One thread is counted right, no more. */
#include <inttypes.h>
#include <stddef.h>
#include <stdint.h>
#include <stdio.h>

enum { MARK = 0x52555454, GETPRIORITY_X86_64 = 140, GETPRIORITY_AARCH64 = 141, ADD_U64 = 0 };

typedef uint64_t plugin_id;
struct qemu_plugin_tb;

extern void qemu_plugin_register_vcpu_tb_trans_cb(plugin_id, void (*)(plugin_id, struct qemu_plugin_tb *));
extern void qemu_plugin_register_vcpu_tb_exec_inline(struct qemu_plugin_tb *, int op, void *number, uint64_t step);
extern size_t qemu_plugin_tb_n_insns(const struct qemu_plugin_tb *);
extern void qemu_plugin_register_vcpu_syscall_cb(plugin_id, void (*)(plugin_id, unsigned vcpu, int64_t number, uint64_t, uint64_t, uint64_t,
                                                                     uint64_t, uint64_t, uint64_t, uint64_t, uint64_t));
extern void qemu_plugin_register_atexit_cb(plugin_id, void (*)(plugin_id, void *), void *);

int qemu_plugin_version = 1;

static uint64_t executed, start;
static int open_mark;

/* Each block of code adds its length when it is entered. */
static void on_block(plugin_id id, struct qemu_plugin_tb *block) {
    (void)id;
    qemu_plugin_register_vcpu_tb_exec_inline(block, ADD_U64, &executed, qemu_plugin_tb_n_insns(block));
}

static void on_call(plugin_id id, unsigned vcpu, int64_t number, uint64_t which, uint64_t stretch, uint64_t c, uint64_t d, uint64_t e,
                    uint64_t f, uint64_t g, uint64_t h) {
    (void)id, (void)vcpu, (void)c, (void)d, (void)e, (void)f, (void)g, (void)h;
    if ((number != GETPRIORITY_X86_64 && number != GETPRIORITY_AARCH64) || which != MARK)
        return;
    if (open_mark)
        fprintf(stderr, "%" PRIu64 " %" PRIu64 "\n", stretch, executed - start);
    open_mark = !open_mark;
    start = executed;
}

static void on_end(plugin_id id, void *nothing) {
    (void)id, (void)nothing;
    fprintf(stderr, "all %" PRIu64 "\n", executed);
}

int qemu_plugin_install(plugin_id id, const void *info, int argc, char **argv) {
    (void)info, (void)argc, (void)argv;
    qemu_plugin_register_vcpu_tb_trans_cb(id, on_block);
    qemu_plugin_register_vcpu_syscall_cb(id, on_call);
    qemu_plugin_register_atexit_cb(id, on_end, NULL);
    return 0;
}
