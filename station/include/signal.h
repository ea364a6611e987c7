#ifndef TZ_SIGNAL_H
#define TZ_SIGNAL_H
#ifndef __x86_64__
#error "this layout is that of x86-64 Linux"
#endif
#define SIGHUP 1
#define SIGINT 2
#define SIGQUIT 3
#define SIGUSR1 10
#define SIGPIPE 13
#define SIGALRM 14
#define SIGTERM 15
#define SIGXCPU 24
#define SIGXFSZ 25
#define SIGVTALRM 26
#define SIG_BLOCK 0
#define SIG_UNBLOCK 1
#define SIG_SETMASK 2
#define SA_RESETHAND 0x80000000u
typedef int sig_atomic_t;
typedef struct {
    unsigned long tz_bits[16];
} sigset_t;
struct sigaction {
    void (*sa_handler)(int);
    sigset_t sa_mask;
    int sa_flags;
    void (*tz_restorer)(void);
};
#define SIG_DFL ((void (*)(int))0)
#define SIG_IGN ((void (*)(int))1)
int sigaction(int number, const struct sigaction *wanted, struct sigaction *before);
int sigprocmask(int how, const sigset_t *wanted, sigset_t *before);
int sigemptyset(sigset_t *set);
int sigaddset(sigset_t *set, int number);
int sigismember(const sigset_t *set, int number);
int raise(int number);
int kill(int process, int number);
#endif
