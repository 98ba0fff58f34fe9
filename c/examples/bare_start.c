/* Where bare.c begins, and how it ends with its status: Linux on x86-64 and aarch64, and a Cortex-M, a
 * Cortex-R or a RISC-V without an operating system, whose emulator (or debugger) hears such calls as
 * semihosting. */
#include <stdint.h>

int main(void);

#if defined(__x86_64__)

__attribute__((noreturn, used)) static void run(void) {
    __asm__ volatile("syscall" : : "a"(60L), "D"((long)main()));
    __builtin_unreachable();
}

/* A function expects its stack as a call leaves it. */
__asm__(".globl _start\n_start: xor %ebp, %ebp\n and $-16, %rsp\n call run\n");

#elif defined(__aarch64__)

__attribute__((noreturn)) void _start(void) {
    register long status __asm__("x0") = main();
    register long call __asm__("x8") = 93;
    __asm__ volatile("svc 0" : : "r"(status), "r"(call));
    __builtin_unreachable();
}

#else

enum { EXIT_EXTENDED = 0x20, APPLICATION_EXIT = 0x20026 };

#ifdef __arm__

#if __ARM_ARCH_PROFILE == 'M'
#define SEMIHOSTING "bkpt 0xab"
#else
#define SEMIHOSTING "svc 0xab"
#endif

static void semihost(uint32_t call, const void *words) {
    register uint32_t r0 __asm__("r0") = call;
    register const void *r1 __asm__("r1") = words;
    __asm__ volatile(SEMIHOSTING : "+r"(r0) : "r"(r1) : "memory");
}

__attribute__((noreturn)) void _start(void) {

#else

/* The three instructions that are heard stand in one line of 16 bytes, and none is a short one. */
static void semihost(uint32_t call, const void *words) {
    register uint32_t a0 __asm__("a0") = call;
    register const void *a1 __asm__("a1") = words;
    __asm__ volatile(".balign 16\n.option push\n.option norvc\n"
                     "slli zero, zero, 0x1f\n ebreak\n srai zero, zero, 7\n.option pop"
                     : "+r"(a0)
                     : "r"(a1)
                     : "memory");
}

__asm__(".section .text.init.enter\n.globl _start\n_start: la sp, __stack\n call run\n.text\n");

__attribute__((noreturn, used)) static void run(void) {

#endif
    uint32_t words[] = {APPLICATION_EXIT, (uint32_t)main()};
    semihost(EXIT_EXTENDED, words);
    for (;;) {
    }
}

#endif
