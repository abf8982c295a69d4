// Start of a test program on the emulated Cortex-M4: the vector table, and main between the ends of the C library.
// Input and output are the emulator's, by semihosting.
#include <stdint.h>
#include <stdlib.h>
#include <unistd.h>

enum { FAULT = 3 }; // the exit status

typedef void Handler(void);

typedef struct {
    uint8_t *stack;
    Handler *handlers[15];
} Vectors;

extern uint8_t stack_top[]; // of the linker script
int main(void);
void initialise_monitor_handles(void);

// The C library's exit calls it, and the usual start files, which have it, are not linked.
void _fini(void)
{
}

#ifdef __ARM_FP
static void allow_floats(void)
{
    *(volatile uint32_t *)0xE000ED88 |= 0xFu << 20; // CPACR: coprocessors 10 and 11
}
#else
static void allow_floats(void)
{
}
#endif

// The emulator has put data in its place and cleared the rest.
void Reset_Handler(void)
{
    allow_floats();
    initialise_monitor_handles();
    exit(main());
}

static void fail(void)
{
    _exit(FAULT);
}

// Of the handlers the first is reset; the next five are faults, and nothing raises the others here.
__attribute__((section(".vectors"), used)) static const Vectors vectors = {
    stack_top, {Reset_Handler, fail, fail, fail, fail, fail, fail, fail, fail, fail, fail, fail, fail, fail, fail}
};
