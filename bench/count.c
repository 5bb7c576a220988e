/*
 * count.c: a plugin for qemu-user that prints how many instructions a program ran. It names what it needs of qemu-plugin.h,
 * which Debian does not pack.
 */
#include <inttypes.h>
#include <stddef.h>
#include <stdint.h>
#include <stdio.h>

struct qemu_plugin_tb;
size_t qemu_plugin_tb_n_insns(const struct qemu_plugin_tb *block);
void qemu_plugin_register_vcpu_tb_trans_cb(uint64_t id, void (*seen)(uint64_t id, struct qemu_plugin_tb *block));
void qemu_plugin_register_vcpu_tb_exec_cb(struct qemu_plugin_tb *block, void (*run)(unsigned cpu, void *data), int flags,
                                          void *data);
void qemu_plugin_register_atexit_cb(uint64_t id, void (*over)(uint64_t id, void *data), void *data);

int qemu_plugin_version = PLUGIN_VERSION; /* of the interface: 1 before qemu 9, then 2 */

static uint64_t count;

static void add(unsigned cpu, void *data) {
    (void)cpu;
    count += (uintptr_t)data;
}

/* A block runs from its first instruction to its last, so its length is what each run of it adds. */
static void watch(uint64_t id, struct qemu_plugin_tb *block) {
    (void)id;
    qemu_plugin_register_vcpu_tb_exec_cb(block, add, 0, (void *)(uintptr_t)qemu_plugin_tb_n_insns(block));
}

static void print(uint64_t id, void *data) {
    (void)id, (void)data;
    fprintf(stderr, "Collected : %" PRIu64 "\n", count); /* as callgrind says it */
}

int qemu_plugin_install(uint64_t id, const void *info, int words, char **word) {
    (void)info, (void)words, (void)word;
    qemu_plugin_register_vcpu_tb_trans_cb(id, watch);
    qemu_plugin_register_atexit_cb(id, print, NULL);
    return 0;
}
