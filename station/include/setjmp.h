#ifndef TZ_SETJMP_H
#define TZ_SETJMP_H
#ifndef __x86_64__
#error "this layout is that of x86-64 Linux"
#endif
typedef struct {
    long tz_kept[25];
} sigjmp_buf[1];
#define sigsetjmp(place, with_signals) __sigsetjmp(place, with_signals)
__attribute__((returns_twice)) int __sigsetjmp(sigjmp_buf place, int with_signals);
__attribute__((noreturn)) void siglongjmp(sigjmp_buf place, int value);
#endif
