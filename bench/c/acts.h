/* Calls of the library as a stack makes them that has its own packets. One of them is counted. */
#ifndef BENCH_ACTS_H
#define BENCH_ACTS_H

/* Sends packets of 1,000 bytes from a client to a server. Callgrind counts the act of this name; its number of calls is printed.
 * Returns the program's status: 2 if there is no such act. */
int count_act(const char *name);

#endif
