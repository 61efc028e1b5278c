/* A plugin for qemu-x86_64 (Debian's qemu-user 7.2 has plugins): counts the instructions that a program runs.
 * With the argument 'blocks' it also tells, for each translated block that counts, its address, its
 * instructions and how often it ran: bench/where adds them up by function. The declarations are those of
 * qemu-plugin.h, which Debian's package does not have. */
#include <stddef.h>
#include <stdint.h>
#include <stdio.h>
#include <string.h>

typedef uint64_t plugin_id;
struct qemu_plugin_tb;
enum plugin_op { ADD_U64 };

void qemu_plugin_register_vcpu_tb_trans_cb(plugin_id id, void (*call)(plugin_id, struct qemu_plugin_tb *));
void qemu_plugin_register_atexit_cb(plugin_id id, void (*call)(plugin_id, void *), void *data);
size_t qemu_plugin_tb_n_insns(const struct qemu_plugin_tb *block);
uint64_t qemu_plugin_tb_vaddr(const struct qemu_plugin_tb *block);
void qemu_plugin_register_vcpu_tb_exec_inline(struct qemu_plugin_tb *block, enum plugin_op op, void *number,
                                              uint64_t more);

#define EXPORT __attribute__((visibility("default")))
EXPORT int qemu_plugin_version = 1;

#define BLOCKS_MAX 200000
static struct {
    uint64_t address, instructions, runs;
} blocks[BLOCKS_MAX];
static size_t used;
static uint64_t count;
static int tells_blocks;

static void translated(plugin_id id, struct qemu_plugin_tb *block) {
    (void)id;
    size_t instructions = qemu_plugin_tb_n_insns(block);
    qemu_plugin_register_vcpu_tb_exec_inline(block, ADD_U64, &count, instructions);
    if (!tells_blocks || used == BLOCKS_MAX) return;
    blocks[used].address = qemu_plugin_tb_vaddr(block);
    blocks[used].instructions = instructions;
    qemu_plugin_register_vcpu_tb_exec_inline(block, ADD_U64, &blocks[used].runs, 1);
    used++;
}

static void done(plugin_id id, void *data) {
    (void)id, (void)data;
    for (size_t i = 0; i < used; i++)
        if (blocks[i].runs > 0)
            fprintf(stderr, "block %llx %llu %llu\n", (unsigned long long)blocks[i].address,
                    (unsigned long long)blocks[i].instructions, (unsigned long long)blocks[i].runs);
    fprintf(stderr, "instructions %llu\n", (unsigned long long)count);
}

EXPORT int qemu_plugin_install(plugin_id id, const void *info, int argc, char **argv) {
    (void)info;
    tells_blocks = argc > 0 && strncmp(argv[0], "blocks", strlen("blocks")) == 0;
    qemu_plugin_register_vcpu_tb_trans_cb(id, translated);
    qemu_plugin_register_atexit_cb(id, done, NULL);
    return 0;
}
