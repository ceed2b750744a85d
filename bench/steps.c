/* Counts the instructions of each call of one function of a program, step by step:
 *   steps [-N] FUNCTION PROGRAM [WORDS..]
 * with -N from the Nth call on. It writes a line for each call to standard error, "call N TOTAL COPYING BYTES": its instructions
 * from the first to its return; those of them in other code than the program's own, the C library's memcpy, memmove and memset and
 * the jumps to them; and the bytes that these were asked for, the third argument of each. Then a line "in N SYMBOL COUNT" for each
 * function of the program that it ran through. A call within a call is part of it. The program's own output is left alone.
 * Linux, arm64 (where valgrind's toggles lose track of returns) or x86-64 (on which it has not been tried). */
#define _GNU_SOURCE
#include <elf.h>
#include <fcntl.h>
#include <stdint.h>
#include <stdio.h>
#include <stdlib.h>
#include <string.h>
#include <sys/mman.h>
#include <sys/ptrace.h>
#include <sys/stat.h>
#include <sys/uio.h>
#include <sys/user.h>
#include <sys/wait.h>
#include <unistd.h>

#if defined __x86_64__
enum { TRAP = 0xcc, TRAP_BYTES = 1, TRAP_BACK = 1 };
#else
enum { TRAP = 0xd4200000, TRAP_BYTES = 4, TRAP_BACK = 0 };
#endif

struct place {
    uint64_t pc, sp, third, back; /* third: the third argument of a function that has just been called; back: where it returns to */
};

static pid_t child;
static const uint8_t *elf;
static const Elf64_Sym *symbols;
static const char *names;
static size_t symbol_count;
static uint64_t code_start, code_end, image_end, base;
static uint64_t *counts;

static void give_up(const char *why)
{
    fprintf(stderr, "steps: %s\n", why);
    if (child > 0)
        kill(child, 9);
    exit(2);
}

static void read_program(const char *file)
{
    struct stat s;
    int fd = open(file, O_RDONLY);
    if (fd < 0 || fstat(fd, &s) != 0)
        give_up("no such program");
    elf = mmap(NULL, (size_t)s.st_size, PROT_READ, MAP_PRIVATE, fd, 0);
    const Elf64_Ehdr *head = (const Elf64_Ehdr *)elf;
    const Elf64_Shdr *part = (const Elf64_Shdr *)(elf + head->e_shoff);
    const char *part_names = (const char *)(elf + part[head->e_shstrndx].sh_offset);
    for (size_t i = 0; i < head->e_shnum; i++) {
        if (part[i].sh_type == SHT_SYMTAB) {
            symbols = (const Elf64_Sym *)(elf + part[i].sh_offset);
            symbol_count = part[i].sh_size / sizeof *symbols;
            names = (const char *)(elf + part[part[i].sh_link].sh_offset);
        }
        if ((part[i].sh_flags & SHF_ALLOC) && part[i].sh_addr + part[i].sh_size > image_end)
            image_end = part[i].sh_addr + part[i].sh_size;
        if (strcmp(part_names + part[i].sh_name, ".text") == 0) {
            code_start = part[i].sh_addr;
            code_end = part[i].sh_addr + part[i].sh_size;
        }
    }
    if (symbols == NULL || code_end == code_start)
        give_up("the program has no symbols");
    counts = calloc(code_end - code_start, sizeof *counts);
}

static uint64_t address_of(const char *name)
{
    for (size_t i = 0; i < symbol_count; i++)
        if (ELF64_ST_TYPE(symbols[i].st_info) == STT_FUNC && symbols[i].st_size > 0 && strcmp(names + symbols[i].st_name, name) == 0)
            return symbols[i].st_value;
    give_up("the program has no such function: it may be a part of its caller");
    return 0;
}

/* Where the program stands in memory: where it starts, less where its file says that it starts. */
static uint64_t base_of(void)
{
    char file[64];
    uint64_t pair[2];
    snprintf(file, sizeof file, "/proc/%d/auxv", (int)child);
    FILE *from = fopen(file, "r");
    while (from != NULL && fread(pair, sizeof pair, 1, from) == 1)
        if (pair[0] == AT_ENTRY) {
            fclose(from);
            return pair[1] - ((const Elf64_Ehdr *)elf)->e_entry;
        }
    give_up("the program's start is not known");
    return 0;
}

static struct place at(void)
{
    struct user_regs_struct r;
    struct iovec room = {&r, sizeof r};
    if (ptrace(PTRACE_GETREGSET, child, (void *)NT_PRSTATUS, &room) != 0)
        give_up("no registers");
#if defined __x86_64__
    return (struct place){r.rip, r.rsp, r.rdx, 0};
#else
    return (struct place){r.pc, r.sp, r.regs[2], r.regs[30]};
#endif
}

static void go_to(uint64_t pc)
{
    struct user_regs_struct r;
    struct iovec room = {&r, sizeof r};
    ptrace(PTRACE_GETREGSET, child, (void *)NT_PRSTATUS, &room);
#if defined __x86_64__
    r.rip = pc;
#else
    r.pc = pc;
#endif
    ptrace(PTRACE_SETREGSET, child, (void *)NT_PRSTATUS, &room);
}

/* Goes on, to the next trap or by one instruction; false once the program has ended. */
static int go(int how)
{
    int status;
    if (ptrace(how, child, NULL, NULL) != 0 || waitpid(child, &status, 0) != child)
        give_up("the program is lost");
    if (WIFEXITED(status))
        return 0;
    if (!WIFSTOPPED(status) || WSTOPSIG(status) != SIGTRAP)
        give_up("the program was stopped by a signal");
    return 1;
}

static void tell(unsigned long call, uint64_t total, uint64_t copying, uint64_t bytes)
{
    fprintf(stderr, "call %lu %lu %lu %lu\n", call, (unsigned long)total, (unsigned long)copying, (unsigned long)bytes);
    for (size_t i = 0; i < symbol_count; i++) {
        const Elf64_Sym *s = &symbols[i];
        uint64_t n = 0;
        if (ELF64_ST_TYPE(s->st_info) != STT_FUNC || s->st_value < code_start)
            continue;
        for (uint64_t a = s->st_value; a < s->st_value + s->st_size && a < code_end; a++) {
            n += counts[a - code_start];
            counts[a - code_start] = 0;
        }
        if (n > 0)
            fprintf(stderr, "in %lu %s %lu\n", call, names + s->st_name, (unsigned long)n);
    }
    memset(counts, 0, (code_end - code_start) * sizeof *counts);
}

static void count_call(unsigned long call, struct place start)
{
    uint64_t total = 0, copying = 0, bytes = 0, sp = start.sp;
    int outside = 0;
#if defined __x86_64__
    start.back = (uint64_t)ptrace(PTRACE_PEEKDATA, child, (void *)start.sp, NULL);
    sp += 8;
#endif
    for (struct place p = start; p.pc != start.back || p.sp != sp; p = at()) {
        uint64_t where = p.pc - base;
        total++;
        if (where >= code_start && where < code_end)
            counts[where - code_start]++;
        else
            copying++;
        if (where >= image_end && !outside)
            bytes += p.third;
        outside = where >= image_end;
        if (!go(PTRACE_SINGLESTEP))
            give_up("the program ended within the call");
    }
    tell(call, total, copying, bytes);
}

int main(int argc, char **argv)
{
    unsigned long calls = 0, first = 1;
    if (argc > 1 && argv[1][0] == '-') {
        first = strtoul(argv[1] + 1, NULL, 10);
        argc--;
        argv++;
    }
    if (argc < 3)
        give_up("usage: steps [-N] FUNCTION PROGRAM [WORDS..]");
    read_program(argv[2]);
    uint64_t function = address_of(argv[1]);
    child = fork();
    if (child == 0) {
        ptrace(PTRACE_TRACEME, 0, NULL, NULL);
        execv(argv[2], argv + 2);
        _exit(127);
    }
    int status;
    if (waitpid(child, &status, 0) != child || !WIFSTOPPED(status))
        give_up("the program does not start");
    base = base_of();
    function += base;
    uint64_t word = (uint64_t)ptrace(PTRACE_PEEKTEXT, child, (void *)function, NULL);
    uint64_t trap = (word & ~(((uint64_t)1 << 8 * TRAP_BYTES) - 1)) | TRAP;
    ptrace(PTRACE_POKETEXT, child, (void *)function, (void *)trap);
    while (go(PTRACE_CONT)) {
        struct place p = at();
        if (p.pc - TRAP_BACK != function)
            give_up("a trap elsewhere");
        p.pc = function;
        go_to(function);
        ptrace(PTRACE_POKETEXT, child, (void *)function, (void *)word);
        if (++calls >= first)
            count_call(calls, p);
        else if (!go(PTRACE_SINGLESTEP))
            give_up("the program ended within the call");
        ptrace(PTRACE_POKETEXT, child, (void *)function, (void *)trap);
    }
    return 0;
}
