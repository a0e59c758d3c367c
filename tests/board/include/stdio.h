/* What the tests use of it; tests/board/stdio.c. Of formats: s, u and x, with a width, numbers of 32 and (ll) 64 bits. */
#ifndef BOARD_STDIO_H
#define BOARD_STDIO_H
#define EOF (-1)
typedef struct board_file FILE;
extern FILE *const stdin, *const stdout, *const stderr;
FILE *freopen(const char *name, const char *mode, FILE *file);
int getchar(void);
int putchar(int c);
int fputs(const char *text, FILE *file);
int printf(const char *format, ...) __attribute__((format(printf, 1, 2)));
int fprintf(FILE *file, const char *format, ...) __attribute__((format(printf, 2, 3)));
int fflush(FILE *file);
int ferror(FILE *file);
#endif
