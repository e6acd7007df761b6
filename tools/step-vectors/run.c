// Runs small A64 programs one after another, each from a state that is given, and prints the state that it leaves.
// It is built for Linux on AArch64 and runs under qemu-aarch64 -cpu max, or on a processor with memory tags.
// make.py builds it, writes its input and reads its output.
//
// A line of input is a test, in hexadecimal: X0, X1, X2, SP, the four tags of the data, the number of words, the words.
// The other registers and the flags are zero. The line of output is how the test ended, then in hexadecimal X0, X2, SP,
// NZCV, the four tags, the eight doublewords of the data, and the bytes that were put out, as pairs of digits after '+'.
// An end is "exit", or "tag AT" or "fault CODE AT" with the address that the fault told.
//
// The services of the machine stand in for system calls: an SVC is replaced by a BRK with the same number, and the
// handler of SIGTRAP carries it out.
#define _GNU_SOURCE
#include <signal.h>
#include <stdint.h>
#include <stdio.h>
#include <stdlib.h>
#include <string.h>
#include <sys/mman.h>
#include <sys/prctl.h>
#include <ucontext.h>

#ifndef PROT_MTE
#define PROT_MTE 0x20
#endif
#ifndef SEGV_MTESERR
#define SEGV_MTESERR 9
#endif
#define TAGGED_ADDRESSES (1UL | 1UL << 1) // PR_TAGGED_ADDR_ENABLE and PR_MTE_TCF_SYNC
#define ALL_TAGS_BUT_0 (0xfffeUL << 3)    // the tags that IRG, ADDG and SUBG may choose
#define SET_TAGGED_ADDR_CTRL 55

enum { BEGIN = 0x1000, PAGE = 4096, DATA_WORDS = 8, GRANULES = 4, MOST_WORDS = 1000, MOST_BYTES = 1000 };

static uint32_t *const code = (uint32_t *)0x10000000;
static uint64_t *const data = (uint64_t *)0x20000000;

static ucontext_t outside;       // the context of this program, while a test runs
static uint64_t before[4];       // X0, X1, X2 and SP
static uint64_t x0, x2, sp, flags;
static char end[64];
static unsigned char put_out[MOST_BYTES];
static int bytes_put_out;

static void set_registers(mcontext_t *machine, const mcontext_t *values) {
    memcpy(machine->regs, values->regs, sizeof machine->regs);
    machine->sp = values->sp;
    machine->pc = values->pc;
    machine->pstate = values->pstate;
}

static void begin(mcontext_t *machine) {
    outside.uc_mcontext.pc = machine->pc + 4;
    memset(machine->regs, 0, sizeof machine->regs);
    memcpy(machine->regs, before, 3 * sizeof before[0]);
    machine->sp = before[3];
    machine->pc = (uint64_t)code;
    machine->pstate &= ~0xf0000000UL;
}

static void finish(mcontext_t *machine) {
    x0 = machine->regs[0];
    x2 = machine->regs[2];
    sp = machine->sp;
    flags = machine->pstate >> 28 & 15;
    set_registers(machine, &outside.uc_mcontext);
}

static void on_break(int number, siginfo_t *info, void *context) {
    mcontext_t *machine = &((ucontext_t *)context)->uc_mcontext;
    int service = *(uint32_t *)machine->pc >> 5 & 0xffff;
    if (service == BEGIN) {
        set_registers(&outside.uc_mcontext, machine);
        begin(machine);
    } else if (service == 1 && bytes_put_out < MOST_BYTES) {
        machine->regs[0] &= 0xff;
        put_out[bytes_put_out++] = machine->regs[0];
        machine->pc += 4;
    } else {
        strcpy(end, service == 3 ? "exit" : "service");
        finish(machine);
    }
}

static void on_fault(int number, siginfo_t *info, void *context) {
    uint64_t at = (uint64_t)info->si_addr;
    if (number == SIGSEGV && info->si_code == SEGV_MTESERR)
        sprintf(end, "tag %lx", at);
    else
        sprintf(end, "fault %d.%d %lx", number, info->si_code, at);
    finish(&((ucontext_t *)context)->uc_mcontext);
}

static void handle(int number, void (*handler)(int, siginfo_t *, void *)) {
    struct sigaction action = {.sa_sigaction = handler, .sa_flags = SA_SIGINFO | SA_ONSTACK};
    sigaction(number, &action, NULL);
}

static uint64_t pointer(int granule, uint64_t tag) { return (uint64_t)(data + 2 * granule) | tag << 56; }

static void set_tag(int granule, uint64_t tag) {
    __asm__ volatile("stg %0, [%0]" : : "r"(pointer(granule, tag)) : "memory");
}

static uint64_t tag_of(int granule) {
    uint64_t address = pointer(granule, 0);
    __asm__ volatile("ldg %0, [%0]" : "+r"(address) : : "memory");
    return address >> 56 & 15;
}

static void set_data(const uint64_t *doublewords) {
    for (int granule = 0; granule < GRANULES; granule++)
        set_tag(granule, 0);
    for (int place = 0; place < DATA_WORDS; place++)
        data[place] = doublewords[place];
}

static uint64_t number(void) {
    unsigned long value;
    if (scanf("%lx", &value) != 1)
        exit(0);
    return value;
}

static void run_test(const uint64_t *doublewords) {
    before[0] = number();
    for (int place = 1; place < 4; place++)
        before[place] = number();
    set_data(doublewords);
    for (int granule = 0; granule < GRANULES; granule++)
        set_tag(granule, number());
    int words = number();
    for (int place = 0; place < words && place < MOST_WORDS; place++) {
        uint32_t word = number();
        int is_service = (word & 0xffe0001f) == 0xd4000001;
        code[place] = is_service ? 0xd4200000 | (word & 0x001fffe0) : word;
    }
    __builtin___clear_cache((char *)code, (char *)(code + words));
    bytes_put_out = 0;
    __asm__ volatile("brk #0x1000" : : : "memory");
    printf("%s; %lx %lx %lx %lx", end, x0, x2, sp, flags);
    for (int granule = 0; granule < GRANULES; granule++)
        printf(" %lx", tag_of(granule));
    for (int granule = 0; granule < GRANULES; granule++)
        set_tag(granule, 0);
    for (int place = 0; place < DATA_WORDS; place++)
        printf(" %lx", data[place]);
    printf(" +");
    for (int place = 0; place < bytes_put_out; place++)
        printf("%02x", put_out[place]);
    printf("\n");
}

static void map(void *at, int rights) {
    if (mmap(at, PAGE, rights, MAP_PRIVATE | MAP_ANONYMOUS | MAP_FIXED, -1, 0) != at) {
        perror("mmap");
        exit(1);
    }
}

int main(void) {
    static char handlers[65536];
    stack_t stack = {.ss_sp = handlers, .ss_size = sizeof handlers};
    sigaltstack(&stack, NULL);
    handle(SIGTRAP, on_break);
    handle(SIGSEGV, on_fault);
    handle(SIGBUS, on_fault);
    handle(SIGILL, on_fault);
    if (prctl(SET_TAGGED_ADDR_CTRL, TAGGED_ADDRESSES | ALL_TAGS_BUT_0, 0, 0, 0) != 0) {
        perror("prctl");
        return 1;
    }
    map(code, PROT_READ | PROT_WRITE | PROT_EXEC);
    map(data, PROT_READ | PROT_WRITE | PROT_MTE);
    uint64_t doublewords[DATA_WORDS];
    for (int place = 0; place < DATA_WORDS; place++)
        doublewords[place] = number();
    for (;;)
        run_test(doublewords);
}
