/* The stack that each call uses: a call runs on a stack of its own that was filled with a pattern, and the lowest byte that
   changed is looked for; what an empty function uses is taken off. Twice, with two patterns, so that no equal byte hides. */
#include <malligovu.h>
#include <stdio.h>
#include <stdlib.h>
#include <string.h>
#include <ucontext.h>

enum { SIZE = 1 << 20 };
enum { EMPTY, ENCODE, READ, DECODE };
static unsigned char *stack;
static ucontext_t back, there;
static int which, m, t, order;
static int8_t soft[63];
static uint8_t word[8];
static uint64_t message[1];
static uint32_t figures[3];

__attribute__((noinline)) static void empty(void) { __asm__ volatile(""); }

static void call(void) {
    if (which == EMPTY) empty();
    if (which == ENCODE) malligovu_encode(m, t, 0, 1, word, 8);
    if (which == READ) malligovu_read(m, t, 0, word, 8, message, 1);
    if (which == DECODE) malligovu_decode(m, t, 0, order, soft, (1u << m) - 1, word, 8, figures, 3);
}

static long used(int w) {
    static long low;
    low = SIZE;
    which = w;
    for (int pattern = 0; pattern < 2; pattern++) {
        unsigned char fill = pattern ? 0x5a : 0xa5;
        memset(stack, fill, SIZE);
        getcontext(&there);
        there.uc_stack.ss_sp = stack, there.uc_stack.ss_size = SIZE, there.uc_link = &back;
        makecontext(&there, call, 0);
        swapcontext(&back, &there);
        long i = 0;
        while (i < SIZE && stack[i] == fill) i++;
        if (i < low) low = i;
    }
    return SIZE - low;
}

int main(void) {
    stack = aligned_alloc(4096, SIZE);
    m = 6, t = 3;
    used(EMPTY);
    long base = used(EMPTY);
    printf("stack of encode (63,45): %ld bytes\n", used(ENCODE) - base);
    printf("stack of read (63,45): %ld bytes\n", used(READ) - base);
    word[0] ^= 1;
    printf("stack of read (63,45), refused with 10: %ld bytes\n", used(READ) - base);
    long most = 0;
    for (m = 4; m <= 6; m++) for (t = 1; t <= 3; t++) for (order = 0; order <= 3; order++) for (int i = 0; i < 4; i++) {
        for (int p = 0; p < 63; p++) soft[p] = i == 0 ? 0 : i == 1 ? -128 : (int8_t)rand();
        long bytes = used(DECODE) - base;
        if (bytes > most) most = bytes;
    }
    printf("stack of decode, the most of every code and order over 4 words: %ld bytes\n", most);
    return 0;
}
