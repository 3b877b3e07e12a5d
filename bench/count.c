// Counts the instructions of a program under QEMU's user-mode emulation, all of them and those outside printing:
// qemu-x86_64 -d plugin -D FILE -plugin count.so,skip=NAME,..,back=NAME,..,keep=NAME,.. PROGRAM. FILE gets two numbers.
// Where a function is entered whose name contains a NAME of skip, counting pauses until one of back is reached: so all
// that printing calls is left out with it, library code too, which has no name here. A function of keep, like one that
// is not named, is counted where its caller is. If a function's name contains several NAMEs, the first of them counts.
// OFFERS is the version of what QEMU offers to plugins: 1 up to QEMU 8, then 2. The few declarations below stand for
// qemu-plugin.h, which Debian does not install.
#include <inttypes.h>
#include <stddef.h>
#include <stdio.h>
#include <string.h>

typedef uint64_t plugin_id;
struct qemu_plugin_tb;
struct qemu_plugin_insn;
__attribute__((visibility("default"))) int qemu_plugin_version = OFFERS;
extern void qemu_plugin_register_vcpu_tb_trans_cb(plugin_id, void (*)(plugin_id, struct qemu_plugin_tb *));
extern void qemu_plugin_register_vcpu_tb_exec_cb(struct qemu_plugin_tb *, void (*)(unsigned, void *), int, void *);
extern void qemu_plugin_register_atexit_cb(plugin_id, void (*)(plugin_id, void *), void *);
extern size_t qemu_plugin_tb_n_insns(const struct qemu_plugin_tb *);
extern struct qemu_plugin_insn *qemu_plugin_tb_get_insn(const struct qemu_plugin_tb *, size_t);
extern const char *qemu_plugin_insn_symbol(const struct qemu_plugin_insn *);
extern void qemu_plugin_outs(const char *);

enum { NAMES = 16, OTHER = 0, BACK = 1, SKIP = 2 };
enum { KIND = 5 }; // the length of skip=, back= and keep=
static const char *names[NAMES];
static int kinds[NAMES];
static int known;
static uint64_t all, outside;
static int state = BACK;

// What a block of instructions in the function of this name does to the counting.
static int place(const char *name) {
    for (int i = 0; name != NULL && i < known; i++)
        if (strstr(name, names[i]) != NULL)
            return kinds[i];
    return OTHER;
}

// The block's length and place come packed in one word, for there is nothing to free then.
static void run(unsigned cpu, void *word) {
    uintptr_t packed = (uintptr_t)word;
    (void)cpu;
    if (packed % 4 != OTHER)
        state = packed % 4;
    all += packed / 4;
    if (state == BACK)
        outside += packed / 4;
}

static void translated(plugin_id id, struct qemu_plugin_tb *tb) {
    (void)id;
    uintptr_t length = qemu_plugin_tb_n_insns(tb);
    int where = place(qemu_plugin_insn_symbol(qemu_plugin_tb_get_insn(tb, 0)));
    qemu_plugin_register_vcpu_tb_exec_cb(tb, run, 0, (void *)(length * 4 + where));
}

static void ended(plugin_id id, void *none) {
    char text[64];
    (void)id, (void)none;
    snprintf(text, sizeof text, "%" PRIu64 " %" PRIu64 "\n", all, outside);
    qemu_plugin_outs(text);
}

static int kind(const char *word) {
    return strncmp(word, "skip=", KIND) == 0 ? SKIP : strncmp(word, "back=", KIND) == 0 ? BACK : OTHER;
}

__attribute__((visibility("default"))) int qemu_plugin_install(plugin_id id, const void *info, int n, char **words) {
    (void)info;
    for (int i = 0; i < n && known < NAMES; i++) {
        kinds[known] = kind(words[i]);
        names[known++] = strdup(words[i] + KIND);
    }
    qemu_plugin_register_vcpu_tb_trans_cb(id, translated);
    qemu_plugin_register_atexit_cb(id, ended, NULL);
    return 0;
}
