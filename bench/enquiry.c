/* Whole enquiries over the static library beside the same sweeps in plain C: times, and the tables entry by entry. A difference is an error. */
#include "mpakirovu.h"
#include "network.h"
#include <math.h>
#include <stdio.h>
#include <stdlib.h>
#include <string.h>
#include <time.h>

enum { MOST_PAIRS = 1024 * 1024, RUNS = 7, QUICK_RUNS = 60, MOST_TEXT = 16 * 1024 * 1024 };

typedef struct {
    uint32_t weight[MOST_PAIRS];
    uint16_t count[MOST_PAIRS];
    uint16_t choice[8 * MOST_PAIRS];
} rooms;

typedef struct {
    uint32_t S, a, D, b;
} enquiry;

static uint16_t step[MPAKIROVU_STEP_ENTRIES(MPAKIROVU_LONGEST)];
static uint8_t text[MOST_TEXT];
static char file[MPAKIROVU_MOST_BYTES + 1];
static size_t file_len;
static enquiry asked;
static struct mpakirovu_outcome told;

static double now(void) {
    struct timespec t;
    clock_gettime(CLOCK_PROCESS_CPUTIME_ID, &t);
    return (double)t.tv_sec + 1e-9 * (double)t.tv_nsec;
}

/* The network as a file. */
static void spell(const network *net) {
    static const char *kinds[] = {"conv", "wrap", "unwrap"};
    int at = sprintf(file, "net\t%zu\t%zu\n", net->n, net->p);
    for (size_t i = 0; i < net->c; i++) {
        const uint32_t *l = net->links + 4 * i;
        at += sprintf(file + at, "link\t%u\t%u\t%u\t%u\n", l[0], l[1], l[2], l[3]);
    }
    for (size_t j = 0; j < net->d; j++) {
        const uint32_t *f = net->funs + 5 * j;
        at += sprintf(file + at, "fun\t%u\t%s\t%u\t%u\t%u\n", f[0], kinds[f[1]], f[2], f[3], f[4]);
    }
    file_len = (size_t)at;
}

static void proved(const network *net, rooms *r) {
    (void)net;
    told = mpakirovu_route((const uint8_t *)file, file_len, asked.S, asked.a, asked.D, asked.b, r->weight, MOST_PAIRS, r->count, MOST_PAIRS, r->choice,
                           8 * MOST_PAIRS, step, sizeof step / sizeof step[0], text, sizeof text);
}

/* The file is accepted and the weight room refused: what reading costs. */
static void reading(const network *net, rooms *r) {
    (void)net;
    told = mpakirovu_route((const uint8_t *)file, file_len, 0, 0, 0, 0, r->weight, 0, r->count, MOST_PAIRS, r->choice, 8 * MOST_PAIRS, step,
                           sizeof step / sizeof step[0], text, sizeof text);
}

/* The enquiry with the most steps that can be handed out, from the tables. */
static enquiry longest(const network *net, const rooms *r) {
    size_t N = net->n * net->p, best = 0;
    for (size_t i = 0; i < N * N; i++)
        if (r->count[i] <= MPAKIROVU_LONGEST && r->count[i] > r->count[best]) best = i;
    size_t P = best / N, Q = best % N;
    return (enquiry){(uint32_t)(P / net->p), (uint32_t)(P % net->p), (uint32_t)(Q / net->p), (uint32_t)(Q % net->p)};
}

static void plain(const network *net, rooms *r) { plain_fill(net, r->weight, r->count, r->choice); }

static double once(void (*fill)(const network *, rooms *), const network *net, rooms *r) {
    memset(r, 0x5a, sizeof *r);
    double from = now();
    fill(net, r);
    return now() - from;
}

typedef struct {
    double read, tables, plain, route, whole;
} times;

static const enquiry no_steps = {0, 0, 0, 0};

/* The quickest of several runs of each, taken in turn, so that a busy machine slows them alike. The enquiry without steps costs reading and tables; another what its route and trace
   cost on top. */
static times quickest(const network *net, enquiry route, rooms *mine, rooms *other) {
    double read = 1e9, none = 1e9, plain_c = 1e9, whole = 1e9;
    for (int i = 0; i < (none < 0.02 ? QUICK_RUNS : RUNS); i++) {
        read = fmin(read, once(reading, net, mine));
        plain_c = fmin(plain_c, once(plain, net, other));
        asked = no_steps;
        none = fmin(none, once(proved, net, mine));
        asked = route;
        whole = fmin(whole, once(proved, net, mine));
    }
    return (times){read, none - read, plain_c, whole - none, whole};
}

/* The most tunnels that are open at once on the route in the step room. */
static unsigned open_at_once(void) {
    unsigned open = 0, most = 0;
    for (size_t i = 0; i < told.steps; i++) {
        uint16_t kind = step[4 * i + 1];
        if (kind == MPAKIROVU_WRAP) open++;
        if (kind == MPAKIROVU_UNWRAP) open--;
        if (open > most) most = open;
    }
    return most;
}

/* One line: the tables beside plain C, and the longest route. */
static int compare(const char *name, const network *net, rooms *mine, rooms *other) {
    spell(net);
    once(reading, net, mine);
    int accepted = told.number == MPAKIROVU_ROOM_TOO_SHORT;
    asked = no_steps;
    once(proved, net, mine);
    once(plain, net, other);
    int same = accepted && memcmp(mine, other, sizeof *mine) == 0;
    times t = quickest(net, longest(net, mine), mine, other);
    printf("%-13s %3zu x %2zu %5zu %5zu %6.2f %8.2f %8.2f %6.2f %6u %6u %8zu %7.1f %8.1f%s\n", name, net->n, net->p, net->c, net->d, t.read * 1e3, t.tables * 1e3, t.plain * 1e3,
           t.tables / t.plain, told.steps, open_at_once(), told.length, t.route * 1e3, t.whole * 1e3, same ? "" : "  DIFFERENT");
    return !same;
}

/* Routes as deep and as long as the limits allow, and routes with many equals. */
static int long_routes(network *net, rooms *mine, rooms *other) {
    int wrong = 0;
    deep(net, 92, 1, 46, 45, 2048);
    wrong += compare("deep", net, mine, other);
    deep(net, 255, 4, 46, 45, 2048);
    wrong += compare("deep, idle", net, mine, other);
    deep(net, 255, 4, 128, 126, 2048);
    wrong += compare("deep, full", net, mine, other);
    ladder(net, 256, 4, CONVS);
    wrong += compare("ties, convs", net, mine, other);
    ladder(net, 256, 4, TUNNELS);
    wrong += compare("ties, tunnels", net, mine, other);
    ladder(net, 256, 4, ALL_KINDS);
    wrong += compare("ties, all", net, mine, other);
    maze(net, 256, 4, 600, 0, 1);
    wrong += compare("maze, tunnels", net, mine, other);
    maze(net, 256, 4, 500, 4, 2);
    wrong += compare("maze, all", net, mine, other);
    return wrong;
}

/* A carrier of four protocols with as many links and functions as places: the exponent says how the time grew since half as many. */
static void growth(network *net, rooms *mine, rooms *other) {
    double before = 0;
    printf("\n%-8s %10s %9s\n", "places", "tables ms", "exponent");
    for (size_t N = 64; N <= 1024; N *= 2) {
        carrier_of(net, N / 4, 4, N, N, RANDOM_WEIGHTS);
        spell(net);
        double t = quickest(net, no_steps, mine, other).tables;
        printf("%-8zu %10.2f", N, t * 1e3);
        if (before > 0) printf(" %9.2f", log2(t / before));
        printf("\n");
        before = t;
    }
}

int main(void) {
    static const size_t sizes[][2] = {{16, 4}, {64, 16}, {128, 8}, {256, 4}};
    static const char *names[] = {"carrier", "equal", "zero"};
    static network net;
    rooms *mine = malloc(sizeof *mine), *other = malloc(sizeof *other);
    int wrong = 0;
    if (!mine || !other) return 2;
    printf("%-13s %8s %5s %5s %6s %8s %8s %6s %6s %6s %8s %7s %8s\n", "family", "n x p", "links", "funs", "read", "tables", "plain C", "ratio", "steps", "open", "bytes", "route", "enquiry");
    for (int kind = 0; kind < 3; kind++)
        for (int i = 0; i < 4; i++) {
            carrier(&net, sizes[i][0], sizes[i][1], (enum weights)kind);
            wrong += compare(names[kind], &net, mine, other);
        }
    chain(&net, 256, 4, RANDOM_WEIGHTS);
    wrong += compare("chain", &net, mine, other);
    star(&net, 64, 16, RANDOM_WEIGHTS);
    wrong += compare("star", &net, mine, other);
    wrong += long_routes(&net, mine, other);
    growth(&net, mine, other);
    if (wrong) printf("%d tables differ\n", wrong);
    return wrong != 0;
}
