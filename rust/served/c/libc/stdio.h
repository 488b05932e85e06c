/* What the programs use of <stdio.h>. */
#ifndef STDIO_H
#define STDIO_H
int printf(const char *format, ...);
int getchar(void);
#endif
