/* What a packet costs in a connection of ngtcp2: made, received, acknowledged. */
#ifndef BENCH_NGTCP2_ACTS_H
#define BENCH_NGTCP2_ACTS_H

/* Plays packets of 1,000 bytes from a client to a server; callgrind counts the act of this name, of which it prints how many there were.
 * Answers the program's status: 2 where there is no such act. */
int count_act(const char *name);

#endif
