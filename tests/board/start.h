/* What start.c gives the programs of the board. */
#ifndef BOARD_START_H
#define BOARD_START_H

/* One request to whoever runs the board, by the numbers of Arm's semihosting. */
int semihost(int operation, const void *argument);

#endif
