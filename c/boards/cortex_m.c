/* What a Cortex-M begins with: its stack, and where the program starts. Newlib does the rest, by calls
 * to the debugger (semihosting), which an emulator answers.
 *
 * With TRAP_UNALIGNED the processor traps what is not aligned, as a device may have it. Newlib does not
 * bear that. */
#include <stdint.h>

void stack_top(void); /* a place of cortex_m.ld, and no function */
void _start(void);

#if defined(TRAP_UNALIGNED)

/* The configuration and control register of ARMv7-M, and its bit UNALIGN_TRP. */
static volatile uint32_t *const configuration = (volatile uint32_t *)0xE000ED14u;
static const uint32_t UNALIGN_TRP = 8u;

static void begin(void) {
    *configuration |= UNALIGN_TRP;
    _start();
}

#elif defined(__ARM_FP)

/* The access to the unit for floating point, which is off after a reset. */
static volatile uint32_t *const coprocessors = (volatile uint32_t *)0xE000ED88u;

static void begin(void) {
    *coprocessors |= 0xFu << 20;
    _start();
}

#else
#define begin _start
#endif

__attribute__((section(".vectors"), used)) void (*const vectors[])(void) = {stack_top, begin};
