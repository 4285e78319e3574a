/*
 * The library intrman. Names and numbers are those of ps2sdk's header of the same name; what a service does here is in
 * docs/PROFILE.md. Before each stands its number, and from where it may be called: thread, handler or both. From
 * elsewhere it answers KE_ILLEGAL_CONTEXT.
 */
#ifndef INTRMAN_H
#define INTRMAN_H

#include <kerr.h>

/* The console's interrupt lines. Here there are 64, of which a script raises any; no device does. */
enum iop_irq_list {
    IOP_IRQ_VBLANK = 0,
    IOP_IRQ_SBUS,
    IOP_IRQ_CDROM,
    IOP_IRQ_DMA,
    IOP_IRQ_RTC0,
    IOP_IRQ_RTC1,
    IOP_IRQ_RTC2,
    IOP_IRQ_SIO0,
    IOP_IRQ_SIO1,
    IOP_IRQ_SPU,
    IOP_IRQ_PIO,
    IOP_IRQ_EVBLANK,
    IOP_IRQ_DVD,
    IOP_IRQ_DEV9,
    IOP_IRQ_RTC3,
    IOP_IRQ_RTC4,
    IOP_IRQ_RTC5,
    IOP_IRQ_SIO2,
    IOP_IRQ_HTR0,
    IOP_IRQ_HTR1,
    IOP_IRQ_HTR2,
    IOP_IRQ_HTR3,
    IOP_IRQ_USB,
    IOP_IRQ_EXTR,
    IOP_IRQ_FWRE,
    IOP_IRQ_FDMA,
    IOP_IRQ_DMA_MDEC_IN = 0x20,
    IOP_IRQ_DMA_MDEC_OUT,
    IOP_IRQ_DMA_SIF2,
    IOP_IRQ_DMA_CDVD,
    IOP_IRQ_DMA_SPU,
    IOP_IRQ_DMA_PIO,
    IOP_IRQ_DMA_GPU_OTC,
    IOP_IRQ_DMA_BERR,
    IOP_IRQ_DMA_SPU2,
    IOP_IRQ_DMA_DEV9,
    IOP_IRQ_DMA_SIF0,
    IOP_IRQ_DMA_SIF1,
    IOP_IRQ_DMA_SIO2_IN,
    IOP_IRQ_DMA_SIO2_OUT,
    IOP_IRQ_SW1 = 0x3e,
    IOP_IRQ_SW2,
};

/*
 * 4, thread: gives a line its handler, which begins with the line disabled, and returns 1 to enable it again, or 0. The
 * mode is not looked at. Answers KE_OK, KE_ILLEGAL_INTRCODE or KE_FOUND_HANDLER.
 */
int RegisterIntrHandler(int irq, int mode, int (*handler)(void *), void *arg);

/* 5, thread: takes a handler away and disables the line. Answers KE_OK, KE_ILLEGAL_INTRCODE, KE_NOTFOUND_HANDLER. */
int ReleaseIntrHandler(int irq);

/* 6, both: enables the line. Answers KE_OK or KE_ILLEGAL_INTRCODE. */
int EnableIntr(int irq);

/*
 * 7, both: disables the line, and writes its number at `res`, if that is not 0. Answers KE_OK, KE_ILLEGAL_INTRCODE, or
 * KE_INTRDISABLE where it was disabled.
 */
int DisableIntr(int irq, int *res);

/* 8, both: turns interrupts off. Answers KE_OK, or KE_CPUDI where they were. */
int CpuDisableIntr(void);

/* 9, both: turns interrupts on. Answers KE_OK. */
int CpuEnableIntr(void);

/* 17, both: turns interrupts off, and writes 1 where they were on, else 0. Answers KE_OK, or KE_CPUDI with the 0. */
int CpuSuspendIntr(int *state);

/* 18, both: makes interrupts as CpuSuspendIntr found them. Answers KE_OK. */
int CpuResumeIntr(int state);

/* 23, both: answers 1 in a handler, else 0. */
int QueryIntrContext(void);

#endif
