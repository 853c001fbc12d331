/* Networks for the benchmarks: records in columns, as the tables read them. */
#ifndef NETWORK_H
#define NETWORK_H
#include <stddef.h>
#include <stdint.h>

enum { MOST_RECORDS = 1024 };

/* The marks of the weight room: no route, and none that is light enough. */
#define NEVER 0xffffffffu
#define OVER 0xfffffffeu

typedef struct {
    size_t n, p, c, d;
    uint32_t links[4 * MOST_RECORDS]; /* number, from, to, weight */
    uint32_t funs[5 * MOST_RECORDS];  /* node, kind, x, y, weight */
} network;

enum weights { RANDOM_WEIGHTS, EQUAL_WEIGHTS, ZERO_WEIGHTS };

/* A ring of n nodes with chords, 1,024 links in all, and as many functions as fit: half conv (most of them
   passive), a quarter wrap, a quarter unwrap. */
void carrier(network *net, size_t n, size_t p, enum weights kind);

/* The same with so many links and functions. */
void carrier_of(network *net, size_t n, size_t p, size_t links, size_t funs, enum weights kind);

/* n nodes in a row, linked both ways, each mostly passive. */
void chain(network *net, size_t n, size_t p, enum weights kind);

/* One hub with many links to every other node and back. */
void star(network *net, size_t n, size_t p, enum weights kind);

/* A ring of wraps from node 0 and a ring of unwraps before node n - 1, each left at one node, such that the one route between these nodes opens so many
   tunnels before it closes any. Every wrap puts the next protocol above; the nodes between the rings and the last are idle. */
void deep(network *net, size_t n, size_t p, uint32_t wraps, uint32_t unwraps, uint32_t tunnels);

enum rung { CONVS, TUNNELS, ALL_KINDS };

/* n nodes in a row with four protocols and parallel links; each node has convs among them, or wraps and unwraps, or one function of each kind. All weights
   are equal, and so are the steps of all routes between two places. */
void ladder(network *net, size_t n, uint32_t parallel, enum rung rung);

/* A ring one way with chords, and random functions, of which so many in 16 are conv; all weights are 0. Routes are long where the chords are just too few
   for short ones; the seeds in use are the longest of some that were tried, not typical ones. */
void maze(network *net, size_t n, size_t p, size_t links, uint32_t convs, uint64_t seed);

/* The same sweeps as the proved tables, in plain C. */
void plain_fill(const network *net, uint32_t *weight, uint16_t *count, uint16_t *choice);

#endif
