/* A write to a page that is read-only, told to the program: all of C's signals that the tests' programs need. */
#ifndef SIGNAL_H
#define SIGNAL_H

enum { SIGSEGV = 1, SIGBUS, SA_SIGINFO = 0 };
#define SIG_DFL ((void (*)(int))0)

typedef struct {
    void *si_addr;
} siginfo_t;

struct sigaction {
    void (*sa_sigaction)(int number, siginfo_t *info, void *context);
    int sa_flags;
};

int sigaction(int number, const struct sigaction *action, struct sigaction *before);
void (*signal(int number, void (*action)(int)))(int);

#endif
