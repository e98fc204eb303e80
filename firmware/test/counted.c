/* Stands between a program and one call of both boards, qs_ENTRY and hand_ENTRY, where the linker's --wrap has put it: the program is as on the host. On
 * standard error it tells a line for each call: beats of the timer, and how many of the PAINTED bytes below the caller's stack were used. The first line is
 * that of a function that returns at once.
 *
 * The emulator must run with -icount: then every instruction lasts the same, and the beats tell how many they were. */
#include "../board/chip.h"

#include <stdio.h>

#define STRING(word) #word
#define TEXT(word) STRING(word)
#define JOINED(front, entry) front##entry
#define NAMED(front, entry) JOINED(front, entry)

#define OWN_STACK 4096
static const uint32_t PAINT = 0xA5C35A3C;

int __real_main(int number, char **words);
int __wrap_main(int number, char **words);

/* The call under way. */
struct counted {
    uint32_t registers[4]; /* its arguments, then its result */
    uint32_t back;         /* where it returns to */
    uint32_t *stack;       /* the caller's, where further arguments lie */
    uint32_t started, ended;
} counted;
uint64_t own_stack[OWN_STACK / sizeof(uint64_t)];

/* The veneer has these places as numbers. */
#define PLACE(of) __builtin_offsetof(struct counted, of)
_Static_assert(PLACE(back) == 16 && PLACE(stack) == 20 && PLACE(started) == 24 && PLACE(ended) == 28, "as the veneer has them");

__attribute__((used)) void counted_before(void) {
    for (unsigned i = 1; i <= PAINTED / sizeof PAINT; i++)
        *(volatile uint32_t *)(counted.stack - i) = PAINT;
}

__attribute__((used)) void counted_after(void) {
    unsigned words = PAINTED / sizeof PAINT;
    while (words > 0 && *(volatile uint32_t *)(counted.stack - words) == PAINT)
        words--;
    fprintf(stderr, "%u %u\n", counted.started - counted.ended, words * (unsigned)sizeof PAINT);
}

/* All else than the call runs on a stack of its own, and nothing is pushed on the caller's: the call finds its arguments there, and below them paint. The timer
 * is read right before the call and behind it. */
#define ADDRESS(to, name) "movw " to ", #:lower16:" name "\n\tmovt " to ", #:upper16:" name "\n\t"
#define OWN_STACK_END "own_stack + " TEXT(OWN_STACK)
#define TIMER_VALUE(to, at) "movw " at ", #0x0004\n\tmovt " at ", #0x4000\n\tldr " to ", [" at "]\n\t"
#define COUNTED(veneer, call)                                                                       \
    __attribute__((naked)) void veneer(void) {                                                      \
        __asm__(ADDRESS("r12", "counted") "stm r12, {r0-r3, lr}\n\t"                                \
                "str sp, [r12, #20]\n\t"                                                            \
                ADDRESS("r0", OWN_STACK_END) "mov sp, r0\n\t"                                       \
                "bl counted_before\n\t"                                                             \
                ADDRESS("r12", "counted") "ldr sp, [r12, #20]\n\t"                                  \
                TIMER_VALUE("r0", "r0") "str r0, [r12, #24]\n\t"                                    \
                "ldm r12, {r0-r3}\n\t"                                                              \
                "bl " call "\n\t"                                                                   \
                TIMER_VALUE("r12", "r12") ADDRESS("r2", "counted") "stm r2, {r0, r1}\n\t"           \
                "str r12, [r2, #28]\n\t"                                                            \
                ADDRESS("r0", OWN_STACK_END) "mov sp, r0\n\t"                                       \
                "bl counted_after\n\t"                                                              \
                ADDRESS("r12", "counted") "ldr sp, [r12, #20]\n\t"                                  \
                "ldr lr, [r12, #16]\n\t"                                                            \
                "ldm r12, {r0, r1}\n\t"                                                             \
                "bx lr");                                                                           \
    }

__attribute__((naked, used)) static void nothing(void) {
    __asm__("bx lr");
}

COUNTED(NAMED(__wrap_qs_, ENTRY), "__real_qs_" TEXT(ENTRY))
COUNTED(NAMED(__wrap_hand_, ENTRY), "__real_hand_" TEXT(ENTRY))
COUNTED(counted_nothing, "nothing")

int __wrap_main(int number, char **words) {
    TIMER0->reload = UINT32_MAX;
    TIMER0->value = UINT32_MAX;
    TIMER0->control = TIMER_ON;
    counted_nothing();
    return __real_main(number, words);
}
