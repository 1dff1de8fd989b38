/* The streams of stdio: what is written to them goes nowhere, and nothing comes from them. */
#include <stdio.h>

#define WEAK __attribute__((weak))

static int put_nowhere(char byte, FILE *stream) { (void)stream; return (unsigned char)byte; }
static int get_nothing(FILE *stream) { (void)stream; return EOF; }
static FILE nowhere = FDEV_SETUP_STREAM(put_nowhere, get_nothing, NULL, _FDEV_SETUP_RW);

WEAK FILE *const stdin = &nowhere;
WEAK FILE *const stdout = &nowhere;
WEAK FILE *const stderr = &nowhere;
