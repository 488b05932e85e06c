/* What the programs use of <stdlib.h>. */
#ifndef STDLIB_H
#define STDLIB_H
#include <stddef.h>
void *realloc(void *block, size_t bytes);
void exit(int status) __attribute__((noreturn));
#endif
