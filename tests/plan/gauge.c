/* Calls the proved reading and checking of a plan from C, for tests/plan/speed and tests/plan/stack.
 *   gauge read FILE       one call; prints its number
 *   gauge stack FILE..    for each file the number and the bytes of stack that the call takes, its return address included. It is made on a stack of its own
 *                         that was painted before: where the paint is gone the call has been. A call of a function that does nothing is taken off. */
#define _XOPEN_SOURCE 700
#include <stddef.h>
#include <stdint.h>
#include <stdio.h>
#include <string.h>
#include <ucontext.h>

uint8_t plan_refusal(const uint8_t *bytes, size_t len);

enum { STACK = 1 << 17, PAINT = 0xA5, ADDRESS = 8 };

static uint8_t stack[STACK];
static uint8_t bytes[1 << 16];
static size_t length;
static uint8_t (*volatile called)(const uint8_t *, size_t);
static uint8_t number;
static ucontext_t here, there;

static uint8_t nothing(const uint8_t *given, size_t len) {
    (void)given;
    (void)len;
    return 0;
}

static void call(void) { number = called(bytes, length); }

static int load(const char *name) {
    FILE *file = fopen(name, "rb");
    if (!file) return 0;
    length = fread(bytes, 1, sizeof bytes, file);
    return fclose(file) == 0;
}

/* the deepest byte of the stack that a call of a function has written */
static size_t depth(uint8_t (*function)(const uint8_t *, size_t)) {
    size_t low = 0;
    memset(stack, PAINT, STACK);
    called = function;
    getcontext(&there);
    there.uc_stack.ss_sp = stack;
    there.uc_stack.ss_size = STACK;
    there.uc_link = &here;
    makecontext(&there, call, 0);
    swapcontext(&here, &there);
    while (low < STACK && stack[low] == PAINT) low++;
    return STACK - low;
}

int main(int count, char **words) {
    int i;
    if (count == 3 && strcmp(words[1], "read") == 0 && load(words[2])) {
        printf("%d\n", plan_refusal(bytes, length));
        return 0;
    }
    if (count < 3 || strcmp(words[1], "stack") != 0) return 2;
    for (i = 2; i < count; i++) {
        size_t plain, whole;
        if (!load(words[i])) return 2;
        plain = depth(nothing);
        whole = depth(plan_refusal);
        printf("%d %zu\n", number, whole - plain + ADDRESS);
    }
    return 0;
}
