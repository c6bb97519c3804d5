#ifndef BARE_STDLIB_H
#define BARE_STDLIB_H
#include <stddef.h>
void *malloc(size_t size);
void free(void *memory);
long strtol(const char *text, char **end, int base);
_Noreturn void exit(int status);
#endif
