/* Prints the layouts that gcc gives the structs and unions of the table in crates/c_types/src/tests.rt, in bits: size, alignment
   and the place of each named member. Run: gcc -o layouts tools/layouts.c && ./layouts (x86-64, System V). */
#include <stdio.h>
#include <string.h>

static int place(const unsigned char *bytes, unsigned long size) {
    for (unsigned long bit = 0; bit < 8 * size; bit++)
        if (bytes[bit / 8] >> bit % 8 & 1) return (int)bit;
    return -1;
}

#define MEMBER(name) (memset(&it, 0, sizeof it), it.name = 1, printf(" %d", place((unsigned char *)&it, sizeof it)))
#define SHOW(text, type, ...)                                                                        \
    do {                                                                                             \
        type;                                                                                        \
        T it;                                                                                        \
        printf("%s: size %lu align %lu at", text, 8 * sizeof(T), 8 * _Alignof(T));                   \
        __VA_ARGS__;                                                                                 \
        printf("\n");                                                                                \
    } while (0)

int main(void) {
    SHOW("char, int", typedef struct { char a; int b; } T, MEMBER(a), MEMBER(b));
    SHOW("short, char, long", typedef struct { short a; char b; long c; } T, MEMBER(a), MEMBER(b), MEMBER(c));
    SHOW("_Bool, unsigned short, _Bool", typedef struct { _Bool a; unsigned short b; _Bool c; } T, MEMBER(a), MEMBER(b), MEMBER(c));
    SHOW("int:3, int:5, int:25", typedef struct { int a : 3; int b : 5; int c : 25; } T, MEMBER(a), MEMBER(b), MEMBER(c));
    SHOW("char, int:3", typedef struct { char a; int b : 3; } T, MEMBER(a), MEMBER(b));
    SHOW("int:31, int:2", typedef struct { int a : 31; int b : 2; } T, MEMBER(a), MEMBER(b));
    SHOW("char:4, int:20, short:9", typedef struct { char a : 4; int b : 20; short c : 9; } T, MEMBER(a), MEMBER(b), MEMBER(c));
    SHOW("int:5, :0, int:6", typedef struct { int a : 5; int : 0; int b : 6; } T, MEMBER(a), MEMBER(b));
    SHOW("char, int :0, char", typedef struct { char a; int : 0; char b; } T, MEMBER(a), MEMBER(b));
    SHOW("char, int :4, char", typedef struct { char a; int : 4; char b; } T, MEMBER(a), MEMBER(b));
    SHOW("_Bool:1, _Bool:1, char", typedef struct { _Bool a : 1; _Bool b : 1; char c; } T, MEMBER(a), MEMBER(b), MEMBER(c));
    SHOW("long:40, long:30", typedef struct { long a : 40; long b : 30; } T, MEMBER(a), MEMBER(b));
    SHOW("long:24, int:9, char", typedef struct { long a : 24; int b : 9; char c; } T, MEMBER(a), MEMBER(b), MEMBER(c));
    SHOW("union char, int", typedef union { char a; int b; } T, MEMBER(a), MEMBER(b));
    SHOW("union short, long, char", typedef union { short a; long b; char c; } T, MEMBER(a), MEMBER(b), MEMBER(c));
    SHOW("union int:5, char", typedef union { int a : 5; char b; } T, MEMBER(a), MEMBER(b));
    SHOW("union char, int :17", typedef union { char a; int : 17; } T, MEMBER(a));
    return 0;
}
