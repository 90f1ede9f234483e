/* What C's operators give on integers, as the table of the tests of crates/c_meaning.
   To run: gcc -std=c11 -fwrapv -o /tmp/operators tools/operators.c && /tmp/operators
   A row is: a type, two operands of it, and what + - * / % << >> & | ^ < <= > >= == != give on them,
   or what is undefined there. The compiler computes the results with operands of that very type, and
   its overflow tests say where a signed result isn't representable. */
#include <limits.h>
#include <stdio.h>

#define IF_DEFINED(undefined, why, fmt, r) \
    if (undefined)                         \
        printf(" " why);                   \
    else                                   \
        printf(" " fmt, r);

#define OVERFLOWS(SIGNED, test) (SIGNED && __builtin_##test##_overflow(a, b, &unused))

#define ROWS(T, f, name, fmt, MIN, MAX, WIDTH, SIGNED)                                         \
    static void f(T a, T b)                                                                    \
    {                                                                                          \
        T unused;                                                                              \
        int past = SIGNED && a == MIN && b == (T)-1;                                           \
        int count = b >= 0 && b < WIDTH;                                                       \
        printf(name " " fmt " " fmt, a, b);                                                    \
        IF_DEFINED(OVERFLOWS(SIGNED, add), "signed_overflow", fmt, (T)(a + b))                 \
        IF_DEFINED(OVERFLOWS(SIGNED, sub), "signed_overflow", fmt, (T)(a - b))                 \
        IF_DEFINED(OVERFLOWS(SIGNED, mul), "signed_overflow", fmt, (T)(a * b))                 \
        if (b == 0)                                                                            \
            printf(" division_by_zero division_by_zero");                                      \
        else if (past)                                                                         \
            printf(" signed_overflow signed_overflow");                                        \
        else                                                                                   \
            printf(" " fmt " " fmt, (T)(a / b), (T)(a % b));                                   \
        if (count && SIGNED && (a < 0 || a > (MAX >> b)))                                      \
            printf(" signed_overflow");                                                        \
        else                                                                                   \
            IF_DEFINED(!count, "shift", fmt, (T)(a << b))                                      \
        IF_DEFINED(!count, "shift", fmt, (T)(a >> b))                                          \
        printf(" " fmt " " fmt " " fmt, (T)(a & b), (T)(a | b), (T)(a ^ b));                   \
        printf(" %d %d %d %d %d %d\n", a < b, a <= b, a > b, a >= b, a == b, a != b);         \
    }

ROWS(int, ints, "int", "%d", INT_MIN, INT_MAX, 32, 1)
ROWS(unsigned, unsigneds, "unsigned", "%u", 0, UINT_MAX, 32, 0)
ROWS(long, longs, "long", "%ld", LONG_MIN, LONG_MAX, 64, 1)
ROWS(unsigned long, unsigned_longs, "unsigned_long", "%lu", 0, ULONG_MAX, 64, 0)

int main(void)
{
    ints(-7, 2);
    ints(INT_MIN, -1);
    ints(INT_MAX, 31);
    ints(5, 0);
    unsigneds(3, 5);
    unsigneds(UINT_MAX, 31);
    longs(-9, 4);
    longs(LONG_MIN, -1);
    longs(3037000500, 62);
    unsigned_longs(ULONG_MAX, 63);
    unsigned_longs(1, 64);
    return 0;
}
