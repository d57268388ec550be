/* The system calls: the number in register 2, two words in 4 and 5, and the answer in 2. */
#ifndef CALLS_H
#define CALLS_H
enum call { CALL_END, CALL_PUT, CALL_READ, CALL_WRITE };
#endif
