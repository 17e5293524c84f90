/* A plugin of the emulator's that says how many instructions were run, whenever the program writes something, before that, and at the end. Debian has no header for
 * plugins with qemu-user, so what is used of it is declared here. */
#include <inttypes.h>
#include <stddef.h>
#include <stdio.h>

typedef uint64_t plugin_id;
struct qemu_plugin_tb; /* some instructions that are run one after the other */

extern void qemu_plugin_register_vcpu_tb_trans_cb(plugin_id id, void (*on_new)(plugin_id, struct qemu_plugin_tb *));
extern size_t qemu_plugin_tb_n_insns(const struct qemu_plugin_tb *some);
extern void qemu_plugin_register_vcpu_tb_exec_inline(struct qemu_plugin_tb *some, int operation, void *to, uint64_t number);
extern void qemu_plugin_register_vcpu_syscall_cb(plugin_id id,
                                                 void (*on_call)(plugin_id, unsigned int, int64_t, uint64_t, uint64_t, uint64_t,
                                                                 uint64_t, uint64_t, uint64_t, uint64_t, uint64_t));
extern void qemu_plugin_register_atexit_cb(plugin_id id, void (*at_end)(plugin_id, void *), void *with);

extern int qemu_plugin_version;
int qemu_plugin_version = 1;
int qemu_plugin_install(plugin_id id, const void *emulator, int count, char **words);

enum { ADD = 0, WRITE = 4 }; /* WRITE is the number of that call of 32-bit Linux on Arm */
static uint64_t instructions;

static void on_new(plugin_id id, struct qemu_plugin_tb *some)
{
    (void)id;
    qemu_plugin_register_vcpu_tb_exec_inline(some, ADD, &instructions, qemu_plugin_tb_n_insns(some));
}

static void say(void) { fprintf(stderr, "instructions %" PRIu64 "\n", instructions); }

static void on_call(plugin_id id, unsigned int processor, int64_t number, uint64_t a, uint64_t b, uint64_t c, uint64_t d,
                    uint64_t e, uint64_t f, uint64_t g, uint64_t h)
{
    (void)id, (void)processor, (void)a, (void)b, (void)c, (void)d, (void)e, (void)f, (void)g, (void)h;
    if (number == WRITE) {
        say();
    }
}

static void at_end(plugin_id id, void *with)
{
    (void)id, (void)with;
    say();
}

int qemu_plugin_install(plugin_id id, const void *emulator, int count, char **words)
{
    (void)emulator, (void)count, (void)words;
    qemu_plugin_register_vcpu_tb_trans_cb(id, on_new);
    qemu_plugin_register_vcpu_syscall_cb(id, on_call);
    qemu_plugin_register_atexit_cb(id, at_end, NULL);
    return 0;
}
