// A plugin for qemu-user: counts the instructions run between mark_start and mark_stop, whole and by
// function. No package of Debian 12 has qemu-plugin.h, so what is used of it is declared here.
#include <stdbool.h>
#include <stdint.h>
#include <stdio.h>
#include <stdlib.h>
#include <string.h>

typedef uint64_t id_t_;
struct tb;
struct insn;
extern void qemu_plugin_register_vcpu_tb_trans_cb(id_t_, void (*)(id_t_, struct tb *));
extern void qemu_plugin_register_vcpu_insn_exec_cb(struct insn *, void (*)(unsigned, void *), int flags, void *);
extern size_t qemu_plugin_tb_n_insns(const struct tb *);
extern struct insn *qemu_plugin_tb_get_insn(const struct tb *, size_t);
extern const char *qemu_plugin_insn_symbol(const struct insn *);

#ifndef VERSION
#define VERSION 1
#endif
__attribute__((visibility("default"))) int qemu_plugin_version = VERSION;

struct function {
    char name[200];
    uint64_t count;
};
static struct function functions[8192];
static size_t known;
static bool counting;
static uint64_t count;
static FILE *out;

static struct function *function(const char *name)
{
    size_t i = 0;
    while (i < known && strncmp(functions[i].name, name, sizeof functions[i].name - 1))
        i++;
    if (i == known) {
        if (known == sizeof functions / sizeof *functions)
            abort();
        strncpy(functions[known++].name, name, sizeof functions->name - 1);
    }
    return &functions[i];
}

static void start(unsigned cpu, void *none)
{
    count = 0;
    for (size_t i = 0; i < known; i++)
        functions[i].count = 0;
    counting = true;
}

// One line for each pair of marks: the count, then NAME=COUNT for each function.
static void stop(unsigned cpu, void *none)
{
    counting = false;
    fprintf(out, "%lu", (unsigned long)count);
    for (size_t i = 0; i < known; i++)
        if (functions[i].count)
            fprintf(out, " %s=%lu", functions[i].name, (unsigned long)functions[i].count);
    fprintf(out, "\n");
    fflush(out);
}

static void step(unsigned cpu, void *in)
{
    if (counting) {
        count++;
        ((struct function *)in)->count++;
    }
}

static void translated(id_t_ id, struct tb *tb)
{
    for (size_t i = 0; i < qemu_plugin_tb_n_insns(tb); i++) {
        struct insn *insn = qemu_plugin_tb_get_insn(tb, i);
        const char *name = qemu_plugin_insn_symbol(insn);
        name = name ? name : "?";
        if (!strcmp(name, "mark_start"))
            qemu_plugin_register_vcpu_insn_exec_cb(insn, start, 0, NULL);
        else if (!strcmp(name, "mark_stop"))
            qemu_plugin_register_vcpu_insn_exec_cb(insn, stop, 0, NULL);
        else
            qemu_plugin_register_vcpu_insn_exec_cb(insn, step, 0, function(name));
    }
}

__attribute__((visibility("default"))) int qemu_plugin_install(id_t_ id, const void *info, int argc, char **argv)
{
    if (argc != 1 || strncmp(argv[0], "out=", 4) || !(out = fopen(argv[0] + 4, "w")))
        return -1;
    qemu_plugin_register_vcpu_tb_trans_cb(id, translated);
    return 0;
}
