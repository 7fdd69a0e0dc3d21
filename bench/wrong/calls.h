/* Calls of the library for C that have to be answered in a certain way, counted by function. */
#ifndef WRONG_CALLS_H
#define WRONG_CALLS_H

#include <stdio.h>
#include <string.h>

#include "nvmed.h"

static int wrong;

/* How many calls there were of each function, in the order of their first calls. */
enum { FUNCTIONS = 20 };
static struct { const char *name; int calls; } called[FUNCTIONS];

/* Counts a call of the function whose name the text begins with. */
static void count(const char *text) {
    size_t wide = strcspn(text, "(");
    int i = 0;
    while (i < FUNCTIONS - 1 && called[i].name && (strncmp(called[i].name, text, wide) != 0 || called[i].name[wide] != '(')) i++;
    called[i].name = text;
    called[i].calls++;
}

/* A call that has to be answered so. */
static void answered(const char *what, const char *text, nvmed_status want, nvmed_status got) {
    count(text);
    if (want != got) {
        wrong++;
        printf("%s: answered %d, not %d\n", what, (int)got, (int)want);
    }
}

/* A call that may be answered in any way but by a number that is no status. */
static void a_status(const char *what, const char *text, nvmed_status got) {
    count(text);
    if ((int)got < 0 || (int)got > NVMED_STRAY || (int)got == 7) {
        wrong++;
        printf("%s: answered %d\n", what, (int)got);
    }
}

#define want(what, status, call) answered(what, #call, status, call)
#define any(what, call) a_status(what, #call, call)

static const uint32_t numbers[] = {0, 1, 2, 7, 8, 15, 16, 63, 64, 255, 256, 65535, 65536, 0x7fffffff, 0x80000000, 0xffffffff};
static const uint64_t wide[] = {0, 1, 511, 4095, 4096, 0xffffffff, 0x100000000, 0x7fffffffffffffff, 0x8000000000000000, 0xffffffffffffffff};
enum { NUMBERS = sizeof numbers / sizeof *numbers, WIDE = sizeof wide / sizeof *wide, POWERS = 128 };

/* A power of two, or the number before one. */
static uint64_t power(int i) { return ((uint64_t)1 << i / 2) - (uint64_t)(i % 2); }

/* What a call has left where it puts its outputs. */
static void left(const char *what, int right) {
    if (!right) {
        wrong++;
        printf("%s: another output\n", what);
    }
}

/* How many calls there were, and how many were answered wrongly. */
static int sum_up(void) {
    for (int i = 0; i < FUNCTIONS && called[i].name; i++)
        printf("%.*s: %d calls\n", (int)strcspn(called[i].name, "("), called[i].name, called[i].calls);
    printf("%d answered wrongly\n", wrong);
    return wrong != 0;
}

#endif
