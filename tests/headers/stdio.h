// Reading, writing and printing.
#include <stddef.h>

typedef struct open_file FILE;
extern FILE *stdin;
extern FILE *stdout;
extern FILE *stderr;
size_t fread(void *to, size_t size, size_t count, FILE *file);
size_t fwrite(const void *from, size_t size, size_t count, FILE *file);
int printf(const char *format, ...);
int fprintf(FILE *file, const char *format, ...);
int snprintf(char *to, size_t size, const char *format, ...);
