// Runs the lists that tag a frame and take its tags away one after another, and prints the state that each of them leaves.
// It is built for Linux on AArch64 and runs under qemu-aarch64 -cpu max, or on a processor with memory tags.
// make.py builds it, writes its input and reads its output.
//
// A line of input is a frame, in hexadecimal: its bytes, the number of its lists, and for each list the number of its words and
// the words. A line of output is the states, with ` / ` between them, as rows have them (crates/plan_rows/src/told.rt), or why
// it faulted. Each begins with X28, for the tag that was drawn.
#define _GNU_SOURCE
#include <signal.h>
#include <stdint.h>
#include <stdio.h>
#include <stdlib.h>
#include <string.h>
#include <sys/mman.h>
#include <sys/prctl.h>
#include <ucontext.h>

#ifndef PROT_MTE
#define PROT_MTE 0x20
#endif
#define TAGGED_ADDRESSES (1UL | 1UL << 1) // PR_TAGGED_ADDR_ENABLE and PR_MTE_TCF_SYNC
#define ALL_TAGS_BUT_0 (0xfffeUL << 3)    // the tags that IRG and ADDG may choose
#define SET_TAGGED_ADDR_CTRL 55

enum { BEGIN = 0x1000, STATE = 0x1001, END = 0x1002, AROUND = 256, AROUND_TAG = 3, DATA_BYTES = 0x43000, CODE_BYTES = 0x8000 };

static uint32_t *const code = (uint32_t *)0x10000000;
static const uint64_t data = 0x20000000, top = 0x20042000, x0 = 0x5a5a000000001000, factor = 0x9e3779b97f4a7c15;

static ucontext_t outside; // the context of this program, while the lists run
static uint64_t sp;
static int states;

static void set_registers(mcontext_t *machine, const mcontext_t *values) {
    memcpy(machine->regs, values->regs, sizeof machine->regs);
    machine->sp = values->sp;
    machine->pc = values->pc;
    machine->pstate = values->pstate;
}

// The address with the tag of its granule.
static uint64_t tagged(uint64_t address) {
    __asm__ volatile("ldg %0, [%0]" : "+r"(address) : : "memory");
    return address;
}

static void set_tag(uint64_t address, uint64_t tag) {
    __asm__ volatile("stg %0, [%1]" : : "r"(address | tag << 56), "r"(address) : "memory");
}

static void print_state(const mcontext_t *machine) {
    printf("%s%llx: ", states++ ? " / " : "", (unsigned long long)machine->regs[28]);
    for (int number = 0; number < 31; number++)
        if (machine->regs[number] != x0 + number)
            printf("x%d=%llX ", number, (unsigned long long)machine->regs[number]);
    if (machine->sp != sp)
        printf("sp=%llX ", (unsigned long long)machine->sp);
    uint64_t sum = 0, last = 0, count = 0;
    printf("tags=");
    for (uint64_t at = sp - AROUND; at < top + AROUND; at += 16) {
        uint64_t pointer = tagged(at), tag = pointer >> 56 & 15;
        sum = sum * factor + ((volatile uint64_t *)pointer)[0];
        sum = sum * factor + ((volatile uint64_t *)pointer)[1];
        if (count > 0 && tag != last) {
            printf("%lXx%lX,", (unsigned long)last, (unsigned long)count);
            count = 0;
        }
        last = tag;
        count++;
    }
    printf("%lXx%lX sum=%lX", (unsigned long)last, (unsigned long)count, (unsigned long)sum);
}

static void on_break(int number, siginfo_t *info, void *context) {
    mcontext_t *machine = &((ucontext_t *)context)->uc_mcontext;
    int service = *(uint32_t *)machine->pc >> 5 & 0xffff;
    machine->pc += 4;
    if (service == BEGIN) {
        set_registers(&outside.uc_mcontext, machine);
        for (int place = 0; place < 31; place++)
            machine->regs[place] = x0 + place;
        machine->sp = sp;
        machine->pc = (uint64_t)code;
    } else if (service == STATE) {
        print_state(machine);
    } else {
        set_registers(machine, &outside.uc_mcontext);
    }
}

static void on_fault(int number, siginfo_t *info, void *context) {
    printf("fault %d.%d %lx", number, info->si_code, (unsigned long)info->si_addr);
    set_registers(&((ucontext_t *)context)->uc_mcontext, &outside.uc_mcontext);
}

static void handle(int number, void (*handler)(int, siginfo_t *, void *)) {
    struct sigaction action = {.sa_sigaction = handler, .sa_flags = SA_SIGINFO | SA_ONSTACK};
    sigaction(number, &action, NULL);
}

static uint64_t number(void) {
    unsigned long value;
    if (scanf("%lx", &value) != 1)
        exit(0);
    return value;
}

static void set_memory(void) {
    for (uint64_t at = data; at < data + DATA_BYTES; at += 16)
        set_tag(at, 0);
    for (uint64_t at = sp - AROUND; at < top + AROUND; at += 8)
        *(volatile uint64_t *)at = at * factor;
    for (uint64_t at = 0; at < AROUND; at += 16) {
        set_tag(sp - AROUND + at, AROUND_TAG);
        set_tag(top + at, AROUND_TAG);
    }
}

static void run_frame(void) {
    sp = top - number();
    set_memory();
    uint32_t *next = code;
    for (uint64_t lists = number(); lists > 0; lists--) {
        for (uint64_t words = number(); words > 0; words--)
            *next++ = number();
        *next++ = 0xd4200000 | STATE << 5;
    }
    *next++ = 0xd4200000 | END << 5;
    __builtin___clear_cache((char *)code, (char *)next);
    states = 0;
    __asm__ volatile("brk #0x1000" : : : "memory");
    printf("\n");
}

static void map(void *at, size_t bytes, int rights) {
    if (mmap(at, bytes, rights, MAP_PRIVATE | MAP_ANONYMOUS | MAP_FIXED, -1, 0) != at) {
        perror("mmap");
        exit(1);
    }
}

int main(void) {
    static char handlers[262144];
    stack_t stack = {.ss_sp = handlers, .ss_size = sizeof handlers};
    sigaltstack(&stack, NULL);
    handle(SIGTRAP, on_break);
    handle(SIGSEGV, on_fault);
    handle(SIGBUS, on_fault);
    handle(SIGILL, on_fault);
    if (prctl(SET_TAGGED_ADDR_CTRL, TAGGED_ADDRESSES | ALL_TAGS_BUT_0, 0, 0, 0) != 0) {
        perror("prctl");
        return 1;
    }
    map(code, CODE_BYTES, PROT_READ | PROT_WRITE | PROT_EXEC);
    map((void *)data, DATA_BYTES, PROT_READ | PROT_WRITE | PROT_MTE);
    for (;;)
        run_frame();
}
