/* Where callgrind counts: from a mark of the part chosen to the next such mark. It is told so by its client requests, since on aarch64 it misses
   returns, and with them which function it is in. */
#ifndef MARKS_H
#define MARKS_H

enum part { NONE, HTTP, ENGINE, QPACK };
extern enum part chosen;
extern unsigned long marks; /* of the part chosen, so far. Two with nothing between are counted too: bench/run takes that off */

void mark(enum part part);

#endif
