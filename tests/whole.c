/* The plain C program once more, with loops over bytes that run to their end, as the archive's does: the compiler takes many bytes at a time. */
#define WHOLE
#define plain_answer whole_answer
#define plain_finish whole_finish
#define plain_housekeep whole_housekeep
#define plain_visit whole_visit
#include "plain.c"
