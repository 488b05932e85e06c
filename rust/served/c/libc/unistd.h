/* What the programs use of <unistd.h>. */
#ifndef UNISTD_H
#define UNISTD_H
#include <stddef.h>
typedef __PTRDIFF_TYPE__ ssize_t;
ssize_t read(int file, void *bytes, size_t count);
ssize_t write(int file, const void *bytes, size_t count);
#endif
