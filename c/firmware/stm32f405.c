/* A board of ../examples/capture.h: an STM32F405 with three lines of IRIG-B at PA0, PA1 and PA2, which
 * are channels 1 to 3 of TIM2, and a log at PA9 (USART1, 115,200 Bd). Channel 4 compares. TIM2 has one
 * interrupt for all of them, so that none of its calls interrupts another. */
#include "stm32f405.h"

#include <stdatomic.h>

enum { CRYSTAL_HZ = 8000000, BAUD = 115200 };

/* ---- start-up: what stm32f405.ld lays out, and the vectors of the processor and of TIM2 */

extern uint32_t data_in_flash, data_begin, data_end, bss_begin, bss_end;
void stack_top(void); /* a place, and no function */
int main(void);
void SysTick_Handler(void);

/* A fault of the processor, or a setup that is refused: a device would note it, and reset. */
static void halt(void) {
    for (;;) {
    }
}

void reset(void) {
    const uint32_t *from = &data_in_flash;
    for (uint32_t *to = &data_begin; to < &data_end; to++) *to = *from++;
    for (uint32_t *to = &bss_begin; to < &bss_end; to++) *to = 0;
    main();
    halt();
}

__attribute__((weak)) void SysTick_Handler(void) { halt(); }

static void serve_timer(void);

__attribute__((section(".vectors"), used)) static void (*const vectors[16 + INTERRUPTS])(void) = {
    [0] = stack_top, [1] = reset, [2] = halt, [3] = halt, [4] = halt, [5] = halt, [6] = halt,
    [15] = SysTick_Handler, [16 + TIM2_IRQ] = serve_timer};

/* ---- the clock: a crystal (HSE), for an RC oscillator is a hundred times too bad. Sections 7.3.1, .3 */

__attribute__((weak)) uint32_t clock_begin(void) {
    static const uint32_t HSEON = 1u << 16, HSERDY = 1u << 17, SW_HSE = 1u << 0, SWS = 3u << 2;
    RCC_CR |= HSEON;
    while (!(RCC_CR & HSERDY)) {
    }
    RCC_CFGR = SW_HSE;
    while ((RCC_CFGR & SWS) != SW_HSE << 2) {
    }
    return CRYSTAL_HZ;
}

/* Sections 7.3.10 to 7.3.14 and 8.4: clocks of GPIOA, TIM2 and USART1; alternate functions of pins. */
static void begin_pins(void) {
    RCC_AHB1ENR |= 1u << 0;
    RCC_APB1ENR |= 1u << 0;
    RCC_APB2ENR |= 1u << 4;
    GPIOA->AFR[0] |= 0x111u;  /* AF1, TIM2, of PA0 to PA2 */
    GPIOA->AFR[1] |= 7u << 4; /* AF7, USART1, of PA9 */
    GPIOA->MODER |= 0x2u << 18 | 0x2Au;
}

/* ---- the timer: sections 18.3.5 and 18.3.8 */

static volatile bool is_past; /* the time that was asked for had come before it was asked for */

/* It counts microseconds, and begins 10 s before it wraps, so that a mistake there shows soon. */
static void begin_timer(uint32_t clock_hz) {
    TIM2->PSC = clock_hz / 1000000u - 1;
    TIM2->ARR = UINT32_MAX;
    TIM2->EGR = EGR_UG; /* takes the prescaler over */
    TIM2->CNT = 0u - 10000000u;
    TIM2->CCMR1 = CCMR_INPUT_FILTERED | CCMR_INPUT_FILTERED << 8;
    TIM2->CCMR2 = CCMR_INPUT_FILTERED; /* channel 4 compares, and moves no pin: CC4S and OC4M 0 */
    TIM2->CCER = CCER_CCXE(0) | CCER_CCXE(1) | CCER_CCXE(2);
    TIM2->SR = 0;
    TIM2->DIER = CCXIF(0) | CCXIF(1) | CCXIF(2) | CC4IF;
    TIM2->CR1 = CR1_CEN;
}

uint32_t timer_now(void) { return TIM2->CNT; }

/* A match that lies behind would come in 71 minutes. */
void compare_at(uint32_t time_us) {
    TIM2->CCR[3] = time_us;
    if (TIM2->CNT - time_us > UINT32_MAX / 2) return;
    is_past = true;
    NVIC_ISPR[TIM2_IRQ / 32] = 1u << TIM2_IRQ % 32;
}

/* A zero clears a flag, a one leaves it (section 18.4.5). */
__attribute__((weak)) uint32_t timer_flags(void) {
    uint32_t flags = TIM2->SR;
    TIM2->SR = ~flags;
    return flags;
}

/* Changes that were taken from the timer, and are not told yet. */
typedef struct change {
    uint8_t line;
    bool is_high;
    uint32_t time_us;
} change;
enum { MOST_CHANGES = 4 * LINES };
static change changes[MOST_CHANGES];
static uint32_t changes_in, changes_out;

/* A channel catches a rise, and then the fall behind it, and so on; so it needs to look at no pin. */
static void take_capture(uint8_t line) {
    bool is_high = !(TIM2->CCER & CCER_CCXP(line));
    changes[changes_in++ % MOST_CHANGES] = (change){line, is_high, TIM2->CCR[line]};
    TIM2->CCER ^= CCER_CCXP(line);
}

/* Whether the compare has matched; and takes what the channels have caught. */
static bool take_all(void) {
    uint32_t flags = timer_flags();
    for (uint8_t line = 0; line < LINES; line++)
        if (flags & CCXIF(line)) take_capture(line);
    return flags & CC4IF;
}

/* Changes first, as on_compare wants it. From the last fall of a frame to the next rise there are 2 ms, and
 * by a slow clock it takes as long to tell those of three lines. So behind each one all channels are served
 * again, until a tick is due: a line full of noise delays none. */
static void serve_timer(void) {
    bool is_due = take_all();
    while (changes_out != changes_in) {
        change next = changes[changes_out++ % MOST_CHANGES];
        on_capture(next.line, next.is_high, next.time_us);
        bool has_room = changes_in - changes_out <= MOST_CHANGES - LINES;
        if (has_room && !is_due && !is_past) is_due = take_all();
    }
    if (!is_due && !is_past) return;
    is_past = false;
    on_compare();
}

/* One priority, and none of the highest. */
void board_listens(void) {
    NVIC_IPR[TIM2_IRQ] = 0x80;
    NVIC_ISER[TIM2_IRQ / 32] = 1u << TIM2_IRQ % 32;
}

/* ---- the log: sections 30.3.2 and 30.6 */

enum { LOG_BYTES = 1024 };
static char log_bytes[LOG_BYTES];
static volatile uint32_t log_written, log_sent;

static void begin_log(uint32_t clock_hz) {
    USART1->BRR = (clock_hz + BAUD / 2) / BAUD;
    USART1->CR1 = CR1_UE | CR1_TE;
}

void log_text(const char *text) {
    while (*text && log_written - log_sent < LOG_BYTES) {
        log_bytes[log_written % LOG_BYTES] = *text++;
        atomic_signal_fence(memory_order_release);
        log_written++;
    }
}

void log_number(uint32_t number) {
    char text[11], *at = text + 10;
    *at = 0;
    do *--at = (char)('0' + number % 10);
    while (number /= 10);
    log_text(at);
}

void log_send(void) {
    while (log_sent != log_written) {
        while (!(USART1->SR & SR_TXE)) {
        }
        atomic_signal_fence(memory_order_acquire);
        USART1->DR = (uint32_t)log_bytes[log_sent % LOG_BYTES];
        log_sent++;
    }
}

/* The letters of lines that a mask has. */
static void log_lines(const char *what, uint8_t mask) {
    if (mask == 0) return;
    log_text(what);
    for (uint8_t line = 0; line < LINES; line++)
        if (mask >> line & 1) log_text((char[]){(char)('A' + line), 0});
}

static void log_states(const irig_masks *lines) {
    log_lines(" agreed:", lines->agreed);
    log_lines(" apart:", lines->apart);
    log_lines(" differed:", lines->differed);
    log_lines(" faulty:", lines->faulty);
    log_lines(" poor:", lines->poor);
    log_lines(" broken:", lines->broken);
    log_lines(" silent:", lines->silent);
}

/* As `1234567 2016-12-31T23:59:60Z locked voted agreed:AC differed:B alarm:degraded`: the count at which
 * it begins, the second, how and why, what each line is, and the alarm. With `untrusted` comes `strays:1`
 * or more: votes contradict one another, so lines, their delays or the crystal are not as they should
 * be. */
void on_second(const irig_second *second) {
    const irig_report *report = &second->report;
    char text[21] = "-";
    if (report->announces) irig_second_write(&(irig_utc){report->day, report->sod}, text);
    log_number(second->edge_us);
    log_text(" ");
    log_text(text);
    log_text(" ");
    log_text(irig_lock_name(report->lock));
    if (report->lock_count > 0) {
        log_text(":");
        log_number(report->lock_count);
    }
    log_text(" ");
    log_text(irig_cause_name(report->cause));
    log_states(&second->lines);
    if (second->strays > 0) {
        log_text(" strays:");
        log_number(second->strays);
    }
    if (*alarm_of(second)) {
        log_text(" alarm:");
        log_text(alarm_of(second));
    }
    log_text("\n");
}

/* ---- all of it */

__attribute__((weak)) void other_work(void) {}

void board_begin(void) {
    uint32_t clock_hz = clock_begin();
    begin_pins();
    begin_timer(clock_hz);
    begin_log(CRYSTAL_HZ);
}
