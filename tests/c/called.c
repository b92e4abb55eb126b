/* Makes a call on a stack of its own, which ends at a page that cannot be touched: registers and stack are set by hand, as a kernel's entry code would. */
#define _GNU_SOURCE
#include "called.h"
#include <signal.h>
#include <stdio.h>
#include <stdlib.h>
#include <string.h>
#include <sys/mman.h>
#include <unistd.h>

#define CALL(name, result, ...) {#name, (void (*)(void))brothladder_##name, sizeof(struct brothladder_##result), {__VA_ARGS__}},
#define ANSWER(call, answer)
#define MEMBER(name, member, set)
#define END_OF_ANSWER
const struct call calls[] = {
#include "tables.inc"
};
const size_t calls_there = sizeof calls / sizeof *calls;

/* What the code below sets, and what it finds afterwards. The order is its own. */
struct frame {
    uint64_t function, stack, reg[6], flags, kept[6], result, left_flags, back, before, counted;
};
static const uint64_t kept[6] = {0x1111111122222222, 0x3333333344444444, 0x5555555566666666, 0x7777777788888888, 0x99999999aaaaaaaa, 0xbbbbbbbbcccccccc};
void on_stack(struct frame *frame);
struct frame *volatile on_stack_frame;

__asm__(".text\n"
        ".globl on_stack\n"
        "on_stack:\n"
        "    push %rbx\n    push %rbp\n    push %r12\n    push %r13\n    push %r14\n    push %r15\n"
        "    mov %rdi, on_stack_frame(%rip)\n"
        "    mov %rsp, 136(%rdi)\n"
        "    mov 72(%rdi), %rbx\n    mov 80(%rdi), %rbp\n    mov 88(%rdi), %r12\n    mov 96(%rdi), %r13\n    mov 104(%rdi), %r14\n    mov 112(%rdi), %r15\n"
        "    mov (%rdi), %rax\n    mov %rax, %r11\n"
        "    mov 8(%rdi), %rsp\n"
        "    mov 24(%rdi), %rsi\n    mov 32(%rdi), %rdx\n    mov 40(%rdi), %rcx\n    mov 48(%rdi), %r8\n    mov 56(%rdi), %r9\n"
        "    mov 64(%rdi), %r10\n"
        "    mov 16(%rdi), %rdi\n"
        "    mov $0x5a5a5a5a5a5a5a5a, %rax\n"
        "    test %r10, %r10\n    jz 1f\n"
        "    pushfq\n    orq $0x100, (%rsp)\n    popfq\n" /* from here on a signal behind each instruction */
        "1:  call *%r11\n"
        "    pushfq\n    andq $-257, (%rsp)\n    popfq\n"
        "    mov on_stack_frame(%rip), %rdi\n"
        "    mov %rax, 120(%rdi)\n"
        "    mov %rbx, 72(%rdi)\n    mov %rbp, 80(%rdi)\n    mov %r12, 88(%rdi)\n    mov %r13, 96(%rdi)\n    mov %r14, 104(%rdi)\n    mov %r15, 112(%rdi)\n"
        "    mov %rsp, %rax\n"
        "    mov 136(%rdi), %rsp\n"
        "    mov %rax, 144(%rdi)\n"
        "    pushfq\n    pop 128(%rdi)\n    cld\n"
        "    pop %r15\n    pop %r14\n    pop %r13\n    pop %r12\n    pop %rbp\n    pop %rbx\n"
        "    ret\n");

static const struct call *now;
static volatile unsigned long steps;
static uint8_t *stack; /* the first byte that may be touched; the page before it may not */
enum { PAGE = 4096, PAINT = 0xa7, OTHER_PAINT = 0x5c };

void (*on_touch)(void);

static void touched(int number) {
    static const char words[] = "FAILED: a byte that is not lent was touched, or the stack was too small: brothladder_";
    (void)number;
    fflush(stdout);
    if (write(1, words, sizeof words - 1) < 0 || (now && write(1, now->name, strlen(now->name)) < 0) || write(1, "\n", 1) < 0) _exit(3);
    if (on_touch) on_touch();
    if (write(1, "0 passed, 1 failed\n", 19) < 0) _exit(3);
    _exit(1);
}

static void stepped(int number) {
    (void)number;
    steps++;
}

static void ready(void) {
    static uint8_t aside[65536];
    stack_t other = {.ss_sp = aside, .ss_size = sizeof aside};
    struct sigaction at_touch = {.sa_handler = touched, .sa_flags = SA_ONSTACK}, on_step = {.sa_handler = stepped, .sa_flags = SA_ONSTACK};
    uint8_t *pages = mmap(NULL, 2 * PAGE, PROT_NONE, MAP_PRIVATE | MAP_ANONYMOUS, -1, 0);
    if (pages == MAP_FAILED || mprotect(pages + PAGE, PAGE, PROT_READ | PROT_WRITE) || sigaltstack(&other, NULL) || sigaction(SIGSEGV, &at_touch, NULL) ||
        sigaction(SIGBUS, &at_touch, NULL) || sigaction(SIGTRAP, &on_step, NULL)) {
        puts("no stack of its own");
        exit(2);
    }
    stack = pages + PAGE;
}

size_t stack_of(const struct call *call) { return strcmp(call->name, "chain") == 0 ? 2048 : 512; }

/* A buffer on a side: bytes at an odd address, numbers at one that 4 divides and 8 does not. */
static const uint8_t *lent_at(enum room room, enum side side, const struct value *v, char kind) {
    enum side there = side == ODD && (kind == 'n' || kind == 'N') ? FOURTH : side;
    const uint8_t *p = kind == 'B' || kind == 'N' ? lend(room, there, v->bytes, v->length) : lend_to_read(room, there, v->bytes, v->length);
    return v->length == 0 && side == ODD ? NULL : p;
}

static void put_together(struct frame *f, const struct call *call, const struct value *values, enum side side, uint64_t *above, uint8_t *result) {
    uint64_t all[6 + MOST_ARGUMENTS] = {0};
    int n = 0, room = PACKET;
    if (call->size > 16) all[n++] = (uint64_t)(uintptr_t)result;
    for (int i = 0; i < MOST_ARGUMENTS && call->argument[i].name; i++) {
        char kind = call->argument[i].kind;
        uint64_t number = values[i].number, more = side == HIGH ? ~(uint64_t)0 : 0x8181818181818181; /* what no callee looks at */
        switch (kind) {
        case '1': number = (number & 0xff) | more << 8; break;
        case '2': number = (number & 0xffff) | more << 16; break;
        case '4': number = (number & 0xffffffff) | more << 32; break;
        case 'b': case 'B': case 'n': case 'N': case 'a':
            number = (uint64_t)(uintptr_t)lent_at((enum room)room++, side, &values[i], kind);
            break;
        }
        all[n++] = number;
        if (kind == 'b' || kind == 'B') all[n++] = values[i].length;
        if (kind == 'n' || kind == 'N') all[n++] = values[i].length / 4;
    }
    memcpy(f->reg, all, sizeof f->reg);
    memcpy(above, all + 6, MOST_ARGUMENTS * sizeof *above);
}

/* What is only read cannot be written where it stands: there is nothing to look at. */
static int left_alone(const struct call *call, const struct value *values, uint8_t *left) {
    int room = PACKET, alone = 1;
    for (int i = 0; i < MOST_ARGUMENTS && call->argument[i].name; i++) {
        char kind = call->argument[i].kind;
        if (kind == 'B' || kind == 'N') {
            const uint8_t *p = lent_bytes((enum room)room);
            alone &= stands((enum room)room, p, values[i].length);
            memcpy(left, p, values[i].length);
            left += values[i].length;
        }
        room += kind == 'B' || kind == 'N' || kind == 'b' || kind == 'n' || kind == 'a';
    }
    return alone;
}

/* How many bytes from the first on still have the paint. */
static size_t painted(const uint8_t *p, size_t n, uint8_t paint) {
    uint64_t eight, all;
    size_t i = 0;
    memset(&all, paint, sizeof all);
    while (i + 8 <= n && (memcpy(&eight, p + i, 8), eight == all)) i += 8;
    while (i < n && p[i] == paint) i++;
    return i;
}

struct outcome call_at(const struct call *call, const struct value *values, enum side side, enum counting counting, uint8_t *left) {
    struct outcome o;
    struct frame f;
    size_t room = stack_of(call);
    uint8_t paint = side == LOW ? PAINT : OTHER_PAINT, blank[MOST_ANSWER];
    if (stack == NULL) ready();
    memset(&o, 0, sizeof o);
    memset(&f, 0, sizeof f);
    memset(blank, paint, sizeof blank);
    uint8_t *result = lend(RESULT, side == ODD ? EIGHTH : side, blank, call->size);
    if (counting != NOTHING) memset(stack, paint, room);
    put_together(&f, call, values, side, (uint64_t *)(void *)(stack + room), result);
    f.function = (uint64_t)(uintptr_t)call->function;
    f.stack = (uint64_t)(uintptr_t)(stack + room);
    f.flags = counting == STEPS;
    memcpy(f.kept, kept, sizeof kept);
    now = call, steps = 0;
    on_stack(&f);
    now = NULL;
    o.steps = steps;
    check(memcmp(f.kept, kept, sizeof kept) == 0 && f.before == f.stack, call->name, "the registers that a callee keeps");
    check((f.left_flags & 0x400) == 0, call->name, "the direction flag is clear");
    if (counting != NOTHING) o.stack = room - painted(stack, room, paint);
    if (call->size > 16) {
        check(f.result == (uint64_t)(uintptr_t)result, call->name, "returns where the answer stands");
        check(stands(RESULT, lent_bytes(RESULT), call->size), call->name, "writes its answer and nothing round it");
        memcpy(o.answer, lent_bytes(RESULT), call->size);
    } else {
        memcpy(o.answer, &f.result, call->size);
    }
    check(left_alone(call, values, left), call->name, "writes its output and nothing else");
    return o;
}
