/* painted.c: see painted.h. */
#include "painted.h"

#include <stdio.h>
#include <stdlib.h>
#include <string.h>

/* The paint is at the top, and below it is room for a report of a fault. */
static uint8_t stack[1 << 16] __attribute__((aligned(64)));
static uint8_t *const top = stack + sizeof stack;
static uint8_t paint[64];

void (*painted_call)(void);
void *painted_entered_at;

/* Calls make() with the stack pointer at a place, and then goes back to its own. The registers that a call has to keep are 0 meanwhile: saved on the stack,
 * one that holds the colour would look like paint. */
void painted_switch(void (*make)(void), void *at);

__asm__(".text\n"
        ".globl painted_entry\n"
        "painted_entry:\n"
        "\tmovq %rsp, painted_entered_at(%rip)\n"
        "\tjmp *painted_call(%rip)\n"
        ".globl painted_switch\n"
        "painted_switch:\n"
        "\tpushq %rbp\n"
        "\tmovq %rsp, %rbp\n"
        "\tpushq %rbx\n"
        "\tpushq %r12\n"
        "\tpushq %r13\n"
        "\tpushq %r14\n"
        "\tpushq %r15\n"
        "\txorl %ebx, %ebx\n"
        "\txorl %r12d, %r12d\n"
        "\txorl %r13d, %r13d\n"
        "\txorl %r14d, %r14d\n"
        "\txorl %r15d, %r15d\n"
        "\tmovq %rsi, %rsp\n"
        "\tcall *%rdi\n"
        "\tleaq -40(%rbp), %rsp\n"
        "\tpopq %r15\n"
        "\tpopq %r14\n"
        "\tpopq %r13\n"
        "\tpopq %r12\n"
        "\tpopq %rbx\n"
        "\tpopq %rbp\n"
        "\tret\n");

long painted_depth(void (*make)(void), uint8_t colour)
{
    uint8_t *low = top - PAINTED;
    memset(low, colour, PAINTED);
    memset(paint, colour, sizeof paint);
    painted_switch(make, top);
    if (memcmp(low, paint, sizeof paint) != 0) {
        fprintf(stderr, "a call took all of the painted stack\n");
        exit(1);
    }
    while (memcmp(low, paint, sizeof paint) == 0)
        low += sizeof paint;
    while (*low == colour)
        low++;
    return (long)((uint8_t *)painted_entered_at + sizeof(void *) - low);
}
