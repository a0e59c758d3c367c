#ifndef BOARD_STDLIB_H
#define BOARD_STDLIB_H
__attribute__((noreturn)) void exit(int status);
#endif
