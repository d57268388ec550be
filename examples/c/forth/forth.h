/* A small Forth. A program is a list of cells: an operation, with a number behind it where it takes one, or OPERATIONS and more for the word that
   begins at that cell less OPERATIONS. */
#ifndef FORTH_H
#define FORTH_H
#include "kit.h"

enum operation {
    EXIT, NUMBER, JUMP, JUMP_ZERO, BEGIN_LOOP, NEXT_LOOP, TEXT, /* compiled by the words below */
    ADD, SUBTRACT, MULTIPLY, DIVIDE, MODULO, EQUAL, LESS, GREATER, IS_ZERO, AND, OR,
    DUPLICATE, DROP, SWAP, OVER, ROTATE, LOAD, STORE, PRINT, EMIT, NEW_LINE, INDEX,
    OPERATIONS
};

/* cells.c: cells that are compiled, and the room of variables among them */
#define CELLS 2000
extern int cells[CELLS];
extern unsigned cells_used;
void compile(int cell);

/* run.c: a word runs from its first cell; the stack, which the compiler uses for its open loops and choices too */
void run(int cell);
void push(int number);
int pop(void);

/* words.c: a line of words, which are carried out, or compiled between : and ; */
void interpret(const char *line);

/* the line is given up: what was wrong, and with what */
extern bool failed;
void fail(const char *what, const char *with);

#endif
