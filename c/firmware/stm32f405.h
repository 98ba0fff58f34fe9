/* The registers of an STM32F405 that the firmwares use, by their names in its reference manual (RM0090),
 * and what stm32f405.c does with them beside what ../examples/capture.h asks of a board. */
#ifndef STM32F405_H
#define STM32F405_H

#include "../examples/capture.h"

typedef volatile uint32_t reg;

/* RM0090, section 18.4: TIM2 to TIM5. TIM2 and TIM5 count in 32 bits. */
typedef struct timer {
    reg CR1, CR2, SMCR, DIER, SR, EGR, CCMR1, CCMR2, CCER, CNT, PSC, ARR, reserved, CCR[4];
} timer;
#define TIM2 ((timer *)0x40000000u)
enum {
    CR1_CEN = 1u << 0,
    EGR_UG = 1u << 0,
    CC4IF = 1u << 4, /* CC1IF to CC4IF of SR, and CC1IE to CC4IE of DIER, are bits 1 to 4 */
    CCMR_INPUT_FILTERED = 0xF1, /* CC1S = 01, IC1F = 1111: 32 us without a change, at 8 MHz */
    CCER_FIELD = 4              /* bits of a channel: CC1E, CC1P, -, CC1NP */
};
#define CCXIF(channel) (2u << (channel)) /* the channel is counted from 0 */
#define CCER_CCXE(channel) (1u << CCER_FIELD * (channel))
#define CCER_CCXP(channel) (2u << CCER_FIELD * (channel)) /* it catches a fall, else a rise */

/* Section 30.6: USART. */
typedef struct usart {
    reg SR, DR, BRR, CR1;
} usart;
#define USART1 ((usart *)0x40011000u)
enum {
    SR_RXNE = 1u << 5,
    SR_TXE = 1u << 7,
    CR1_RE = 1u << 2,
    CR1_TE = 1u << 3,
    CR1_UE = 1u << 13
};

/* Section 8.4: GPIO. */
typedef struct gpio {
    reg MODER, OTYPER, OSPEEDR, PUPDR, IDR, ODR, BSRR, LCKR, AFR[2];
} gpio;
#define GPIOA ((gpio *)0x40020000u)

/* Section 7.3: RCC of the STM32F405. */
#define RCC_CR (*(reg *)0x40023800u)
#define RCC_CFGR (*(reg *)0x40023808u)
#define RCC_AHB1ENR (*(reg *)0x40023830u)
#define RCC_APB1ENR (*(reg *)0x40023840u)
#define RCC_APB2ENR (*(reg *)0x40023844u)

/* The interrupt controller of ARMv7-M. */
#define NVIC_ISER ((reg *)0xE000E100u)
#define NVIC_ICER ((reg *)0xE000E180u)
#define NVIC_ISPR ((reg *)0xE000E200u)
#define NVIC_IPR ((volatile uint8_t *)0xE000E400u)
enum { TIM2_IRQ = 28, INTERRUPTS = 82 }; /* chapter 12, table of vectors of the STM32F405 */

/* Pulses rise less than so many us from their places, and by so much is the crystal wrong in a second at
 * most. */
enum { WITHIN_US = 450, MOST_DRIFT_US = 100 };

/* Starts the clock, the timer, the pins and the serial line. No interrupt comes before `board_listens`. */
void board_begin(void);
void board_listens(void);

/* Writes to the log, from any one priority; what a full log has no room for is lost. */
void log_text(const char *text);
void log_number(uint32_t number);

/* Sends what the log has. To be called by the main loop. */
void log_send(void);

/* ---- what played.c does in an emulator, and else stm32f405.c */

/* Starts the crystal, and says at how many hertz the timer is clocked. */
uint32_t clock_begin(void);

/* The timer's flags, which are then clear. */
uint32_t timer_flags(void);

/* What else the main loop does. */
void other_work(void);

#endif
