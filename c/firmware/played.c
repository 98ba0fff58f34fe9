/* What qemu's STM32F405 (machine netduinoplus2) lacks of the real one: a crystal, captures and compares
 * of a timer. Leave this file out of a firmware for hardware.
 *
 * A second program, ./play, says over the serial line what will come to the lines: records of a letter
 * and the timer's count, four bytes, lowest first. `A` is a rise of the first line and `a` a fall. When
 * that count comes, it is written to the capture register, and TIM2's interrupt follows. From `H` to `h`
 * the main loop hangs, from `M` to `m` the interrupt is masked, and `.`, the last one, ends the run.
 *
 * SysTick interrupts all else, as the hardware that it stands for. It turns the timer on by 250 us and
 * looks whether something has come. By itself the timer hardly counts, so that a run is the same however
 * slow the machine is that plays it. */
#include "stm32f405.h"

#define SYST_CSR (*(reg *)0xE000E010u)
#define SYST_RVR (*(reg *)0xE000E014u)
#define SYST_CVR (*(reg *)0xE000E018u)
enum { TIMER_HZ = 1000000000, SLOWEST = 0xFFFF, ROUND_US = 250, SYSTICK_MHZ = 168 }; /* of qemu */

typedef struct record {
    char what;
    uint32_t time_us;
} record;

static record records[9000];
static const record *next;
static uint32_t now_us;
static volatile uint32_t flags;
static volatile bool hangs;

uint32_t clock_begin(void) { return TIMER_HZ; }

uint32_t timer_flags(void) {
    __asm__ volatile("cpsid i");
    uint32_t now = flags;
    flags = 0;
    __asm__ volatile("cpsie i");
    return now;
}

static uint8_t received(void) {
    while (!(USART1->SR & SR_RXNE)) {
    }
    return (uint8_t)USART1->DR;
}

static void read_records(void) {
    record *to = records;
    USART1->CR1 |= CR1_RE;
    log_text("ready\n");
    log_send();
    do {
        *to = (record){(char)received(), 0};
        for (int byte = 0; byte < 4; byte++) to->time_us |= (uint32_t)received() << 8 * byte;
    } while (to++->what != '.');
}

static void begin(void) {
    now_us = TIM2->CNT;
    read_records();
    next = records;
    TIM2->PSC = SLOWEST;
    TIM2->CNT = now_us;
    SYST_RVR = SYSTICK_MHZ * ROUND_US - 1;
    SYST_CVR = 0;
    SYST_CSR = 7; /* counts, interrupts, by the processor's clock */
}

/* It takes up to the next round. */
void other_work(void) {
    if (!next) begin();
    do __asm__ volatile("wfi");
    while (hangs);
}

/* A channel catches the edges that it is set to, and no others. */
static void change(uint8_t line, bool is_high, uint32_t time_us) {
    bool catches_fall = TIM2->CCER & CCER_CCXP(line);
    if (!(TIM2->CCER & CCER_CCXE(line)) || catches_fall == is_high) return;
    TIM2->CCR[line] = time_us;
    flags |= CCXIF(line);
}

static void end(void) {
    register uint32_t r0 __asm__("r0") = 0x18;    /* SYS_EXIT of semihosting */
    register uint32_t r1 __asm__("r1") = 0x20026; /* ADP_Stopped_ApplicationExit */
    __asm__ volatile("bkpt 0xab" : : "r"(r0), "r"(r1) : "memory");
}

static void play(const record *now) {
    static const uint32_t TIM2_BIT = 1u << TIM2_IRQ % 32;
    char what = now->what;
    if (what >= 'A' && what < 'A' + LINES) change((uint8_t)(what - 'A'), true, now->time_us);
    else if (what >= 'a' && what < 'a' + LINES) change((uint8_t)(what - 'a'), false, now->time_us);
    else if (what == 'H' || what == 'h') hangs = what == 'H';
    else if (what == 'M') NVIC_ICER[TIM2_IRQ / 32] = TIM2_BIT;
    else if (what == 'm') NVIC_ISER[TIM2_IRQ / 32] = TIM2_BIT;
    else end();
}

/* A compare matches when the count comes to it, and not where it has passed it already. */
void SysTick_Handler(void) {
    now_us += ROUND_US;
    TIM2->CNT = now_us;
    while (now_us - next->time_us <= UINT32_MAX / 2) play(next++);
    if (now_us - TIM2->CCR[3] < ROUND_US) flags |= CC4IF;
    if (flags & TIM2->DIER) NVIC_ISPR[TIM2_IRQ / 32] = 1u << TIM2_IRQ % 32;
}
