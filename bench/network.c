#include "network.h"
#include <stdlib.h>
#include <string.h>

static uint64_t state;

static uint32_t draw(uint32_t below) {
    state ^= state << 13;
    state ^= state >> 7;
    state ^= state << 17;
    return (uint32_t)((state >> 11) % below);
}

static uint32_t draw_weight(enum weights kind) {
    return kind == RANDOM_WEIGHTS ? 1 + draw(1000) : kind == EQUAL_WEIGHTS ? 7 : 0;
}

static void start(network *net, size_t n, size_t p, uint64_t seed) {
    memset(net, 0, sizeof *net);
    net->n = n;
    net->p = p;
    state = 88172645463325252u + seed;
}

static void add_link(network *net, uint32_t from, uint32_t to, uint32_t weight) {
    uint32_t *l = net->links + 4 * net->c;
    l[0] = (uint32_t)net->c++;
    l[1] = from;
    l[2] = to;
    l[3] = weight;
}

static void add_fun(network *net, uint32_t node, uint32_t kind, uint32_t x, uint32_t y, uint32_t weight) {
    uint32_t *f = net->funs;
    for (size_t j = 0; j < net->d; j++, f += 5)
        if (f[0] == node && f[1] == kind && f[2] == x && f[3] == y) return;
    f[0] = node;
    f[1] = kind;
    f[2] = x;
    f[3] = y;
    f[4] = weight;
    net->d++;
}

static int by_key(const void *a, const void *b) {
    const uint32_t *f = a, *g = b;
    for (int i = 0; i < 4; i++)
        if (f[i] != g[i]) return f[i] < g[i] ? -1 : 1;
    return 0;
}

static void normal_order(network *net) { qsort(net->funs, net->d, 5 * sizeof(uint32_t), by_key); }

/* Random functions until there are `most`; one in `hub` draws is at node 0, or all nodes alike where hub is 0. */
static void add_funs(network *net, size_t most, enum weights kind, uint32_t hub) {
    while (net->d < most) {
        uint32_t node = draw((uint32_t)net->n), sort = draw(8);
        if (hub && draw(hub) == 0) node = 0;
        uint32_t x = draw((uint32_t)net->p), y = draw((uint32_t)net->p);
        add_fun(net, node, sort < 4 ? 0 : sort < 6 ? 1 : 2, x, sort < 3 ? x : y, draw_weight(kind));
    }
    normal_order(net);
}

static size_t least(size_t a, size_t b) { return a < b ? a : b; }

void carrier(network *net, size_t n, size_t p, enum weights kind) { carrier_of(net, n, p, MOST_RECORDS, least(3 * n * p * p, MOST_RECORDS), kind); }

void carrier_of(network *net, size_t n, size_t p, size_t links, size_t funs, enum weights kind) {
    start(net, n, p, n * p + (uint64_t)kind);
    for (uint32_t v = 0; v < n; v++) {
        uint32_t next = (uint32_t)((v + 1) % n);
        add_link(net, v, next, draw_weight(kind));
        add_link(net, next, v, draw_weight(kind));
    }
    while (net->c < links) {
        uint32_t from = draw((uint32_t)n), to = draw((uint32_t)n);
        add_link(net, from, to, draw_weight(kind));
    }
    add_funs(net, funs, kind, 0);
}

void chain(network *net, size_t n, size_t p, enum weights kind) {
    start(net, n, p, 7);
    for (uint32_t v = 0; v + 1 < n; v++) {
        add_link(net, v, v + 1, draw_weight(kind));
        add_link(net, v + 1, v, draw_weight(kind));
    }
    for (uint32_t v = 0; v < n; v++)
        for (uint32_t x = 0; x < p; x++) {
            uint32_t sort = draw(64), y = draw((uint32_t)p);
            add_fun(net, v, sort > 1 ? 0 : 1 + sort, x, sort > 1 ? x : y, draw_weight(kind));
        }
    normal_order(net);
}

void star(network *net, size_t n, size_t p, enum weights kind) {
    start(net, n, p, 99);
    for (uint32_t i = 0; i < MOST_RECORDS / 2; i++) {
        uint32_t v = 1 + i % ((uint32_t)n - 1);
        add_link(net, 0, v, draw_weight(kind));
        add_link(net, v, 0, draw_weight(kind));
    }
    add_funs(net, MOST_RECORDS, kind, 4);
}

/* A ring of nodes that do one kind to every protocol x, with the next protocol above it; gives the node at which the last of so many steps leaves. */
static uint32_t ring(network *net, uint32_t first, uint32_t size, uint32_t kind, uint32_t steps) {
    uint32_t p = (uint32_t)net->p;
    for (uint32_t v = 0; v < size; v++) {
        add_link(net, first + v, first + (v + 1) % size, 1);
        for (uint32_t x = 0; x < p; x++) add_fun(net, first + v, kind, x, (x + 1) % p, 1);
    }
    return first + (steps - 1) % size;
}

void deep(network *net, size_t n, size_t p, uint32_t wraps, uint32_t unwraps, uint32_t tunnels) {
    start(net, n, p, 0);
    uint32_t last_wrap = ring(net, 0, wraps, 1, tunnels);
    add_link(net, last_wrap, wraps, 1);
    uint32_t last_unwrap = ring(net, wraps, unwraps, 2, tunnels);
    add_link(net, last_unwrap, (uint32_t)n - 1, 1);
    normal_order(net);
}

/* Four functions, or three where all kinds are there. */
static void add_rung(network *net, uint32_t v, enum rung rung) {
    uint32_t here = 2 * (v % 2), there = 2 - here;
    for (uint32_t i = 0; i < 4; i++) {
        if (rung == CONVS) add_fun(net, v, 0, here + i / 2, there + i % 2, 1);
        if (rung == TUNNELS) add_fun(net, v, 1 + i / 2, 0, i % 2, 1);
        if (rung == ALL_KINDS && i < 3) add_fun(net, v, i, 0, 0, 1);
    }
}

void ladder(network *net, size_t n, uint32_t parallel, enum rung rung) {
    start(net, n, 4, 0);
    for (uint32_t v = 0; v + 1 < n; v++) {
        for (uint32_t i = 0; i < parallel; i++) add_link(net, v, v + 1, 1);
        add_rung(net, v, rung);
    }
    normal_order(net);
}

void maze(network *net, size_t n, size_t p, size_t links, uint32_t convs, uint64_t seed) {
    start(net, n, p, seed);
    for (uint32_t v = 0; v < n; v++) add_link(net, v, (uint32_t)((v + 1) % n), 0);
    while (net->c < links) {
        uint32_t from = draw((uint32_t)n), to = draw((uint32_t)n);
        add_link(net, from, to, 0);
    }
    while (net->d < MOST_RECORDS) {
        uint32_t node = draw((uint32_t)n), sort = draw(16), x = draw((uint32_t)p), y = draw((uint32_t)p);
        add_fun(net, node, sort < convs ? 0 : 1 + draw(2), x, y, 0);
    }
    normal_order(net);
}
