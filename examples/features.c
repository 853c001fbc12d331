/* features: for each order over a network, one line of features of its best route.

       features NETWORK ORDERS

   NETWORK is a network file. A line of ORDERS is one order, the numbers S, a, D, b, spelled by the
   network file's rules for tabs, numbers and LF. The line written for it has eight fields, parted by
   tabs:

       order     the order's line, counted from 1
       outcome   the outcome's number; 2 for a misshapen order
       name      the outcome's name
       weight    of the best route
       steps     of the best route
       entered   nodes at which the route enters a tunnel, that is, a wrap is applied, in the route's
                 order, parted by commas
       left      nodes at which it leaves one, that is, an unwrap is applied, likewise
       deepest   the most protocols on the packet's stack at once

   A "-" stands where there is nothing to tell. The exit status is 0 if every order has its line, 1 if
   the network is refused, and 2 if a file or memory fails; the reason goes to standard error. */
#include "mpakirovu.h"
#include <errno.h>
#include <inttypes.h>
#include <stdio.h>
#include <stdlib.h>
#include <string.h>

enum status { DONE = 0, REFUSED = 1, FAILED = 2 };

enum reading { ORDER, MISSHAPEN_ORDER, NO_MORE_ORDERS };

struct network {
    const uint8_t *file;
    size_t length;
};

struct order {
    uint32_t S, a, D, b;
};

struct rooms {
    size_t places, steps; /* what they are sized for */
    uint32_t *weight;
    uint16_t *count, *choice, *step;
    uint8_t *text;
};

static enum status fail(const char *what, const char *why)
{
    fprintf(stderr, "features: %s: %s\n", what, why);
    return FAILED;
}

static const char *outcome_name(uint32_t number)
{
    switch (number) {
    case MPAKIROVU_FOUND: return "found";
    case MPAKIROVU_FILE_TOO_LONG: return "file-too-long";
    case MPAKIROVU_MISSHAPEN: return "misshapen";
    case MPAKIROVU_OUT_OF_RANGE: return "out-of-range";
    case MPAKIROVU_GIVEN_TWICE: return "given-twice";
    case MPAKIROVU_TOO_MANY: return "too-many";
    case MPAKIROVU_UNKNOWN_PLACE: return "unknown-place";
    case MPAKIROVU_ROOM_TOO_SHORT: return "room-too-short";
    case MPAKIROVU_NO_ROUTE: return "no-route";
    case MPAKIROVU_TOO_HEAVY: return "too-heavy";
    case MPAKIROVU_TOO_MANY_STEPS: return "too-many-steps";
    case MPAKIROVU_TEXT_TOO_LONG: return "text-too-long";
    default: return "unknown-outcome";
    }
}

/* ---- Text that the library has accepted or written: its shape is promised and needs no test ---- */

static const uint8_t *past(const uint8_t *text, uint8_t mark)
{
    while (*text != mark)
        text++;
    return text + 1;
}

static uint32_t decimal(const uint8_t *text)
{
    uint32_t value = 0;
    for (; '0' <= *text && *text <= '9'; text++)
        value = value * 10 + (uint32_t)(*text - '0');
    return value;
}

/* An accepted file begins with the line net, n, p. */
static size_t places(const uint8_t *file)
{
    const uint8_t *n = past(file, '\t');
    const uint8_t *p = past(n, '\t');
    return (size_t)decimal(n) * decimal(p);
}

/* In a step line five fields stand before the node reached: step, link, kind word, x, y. */
static uint32_t node_reached(const uint8_t *step_line)
{
    for (int field = 0; field < 5; field++)
        step_line = past(step_line, '\t');
    return decimal(step_line);
}

/* ---- Orders ---- */

/* A number too large for 32 bits becomes the largest of them, which is below no n and no p. */
static uint32_t with_digit(uint32_t value, uint32_t digit)
{
    return value > (UINT32_MAX - digit) / 10 ? UINT32_MAX : value * 10 + digit;
}

/* Reads a number that begins with the byte *next, and leaves there the byte after it. A zero is a
   whole number, so that a digit after it is found to be no tab or LF. */
static int read_number(FILE *orders, int *next, uint32_t *value)
{
    const int zero = *next == '0';
    if (*next < '0' || '9' < *next)
        return 0;
    *value = 0;
    do {
        *value = with_digit(*value, (uint32_t)(*next - '0'));
        *next = getc(orders);
    } while (!zero && '0' <= *next && *next <= '9');
    return 1;
}

static enum reading read_order(FILE *orders, struct order *order)
{
    uint32_t *const numbers[4] = { &order->S, &order->a, &order->D, &order->b };
    int good = 1;
    int next = getc(orders);
    if (next == EOF)
        return NO_MORE_ORDERS;
    for (int i = 0; good && i < 4; i++) {
        good = read_number(orders, &next, numbers[i]) && next == (i < 3 ? '\t' : '\n');
        if (good && i < 3)
            next = getc(orders);
    }
    while (next != '\n' && next != EOF)
        next = getc(orders);
    if (ferror(orders))
        return NO_MORE_ORDERS;
    return good ? ORDER : MISSHAPEN_ORDER;
}

/* ---- Features ---- */

/* The nodes at which the route from S applies functions of this kind. The kinds are in the step room;
   the nodes are in the trace, where a step line tells the one at which the next step begins. */
static void write_gateways(const struct rooms *rooms, uint32_t steps, uint32_t S, uint16_t kind)
{
    const uint8_t *line = past(rooms->text, '\n');
    const char *before = "";
    uint32_t node = S;
    putchar('\t');
    for (uint32_t i = 0; i < steps; i++) {
        if (rooms->step[4 * i + 1] == kind) {
            printf("%s%" PRIu32, before, node);
            before = ",";
        }
        node = node_reached(line);
        line = past(line, '\n');
    }
    if (*before == '\0')
        putchar('-');
}

static uint32_t deepest(const uint16_t *step, uint32_t steps)
{
    uint32_t height = 1, most = 1;
    for (uint32_t i = 0; i < steps; i++) {
        if (step[4 * i + 1] == MPAKIROVU_WRAP)
            height++;
        if (step[4 * i + 1] == MPAKIROVU_UNWRAP)
            height--;
        if (height > most)
            most = height;
    }
    return most;
}

static void write_outcome(unsigned long line, uint32_t number)
{
    printf("%lu\t%" PRIu32 "\t%s", line, number, outcome_name(number));
}

static void write_refusal(unsigned long line, uint32_t number)
{
    write_outcome(line, number);
    fputs("\t-\t-\t-\t-\t-\n", stdout);
}

static void write_features(unsigned long line, uint32_t S, struct mpakirovu_outcome outcome,
    const struct rooms *rooms)
{
    switch (outcome.number) {
    case MPAKIROVU_FOUND:
        write_outcome(line, outcome.number);
        printf("\t%" PRIu32 "\t%" PRIu32, outcome.weight, outcome.steps);
        write_gateways(rooms, outcome.steps, S, MPAKIROVU_WRAP);
        write_gateways(rooms, outcome.steps, S, MPAKIROVU_UNWRAP);
        printf("\t%" PRIu32 "\n", deepest(rooms->step, outcome.steps));
        break;
    case MPAKIROVU_TEXT_TOO_LONG: /* there is no trace, but the step room holds the route */
        write_outcome(line, outcome.number);
        printf("\t%" PRIu32 "\t%" PRIu32, outcome.weight, outcome.steps);
        printf("\t-\t-\t%" PRIu32 "\n", deepest(rooms->step, outcome.steps));
        break;
    default:
        write_refusal(line, outcome.number);
    }
}

static struct mpakirovu_outcome ask(const struct network *network, const struct order *order,
    const struct rooms *rooms)
{
    return mpakirovu_route(network->file, network->length, order->S, order->a, order->D, order->b,
        rooms->weight, MPAKIROVU_WEIGHT_ENTRIES(rooms->places),
        rooms->count, MPAKIROVU_COUNT_ENTRIES(rooms->places),
        rooms->choice, MPAKIROVU_CHOICE_ENTRIES(rooms->places),
        rooms->step, MPAKIROVU_STEP_ENTRIES(rooms->steps),
        rooms->text, MPAKIROVU_TRACE_BYTES(rooms->steps));
}

static void answer_orders(const struct network *network, const struct rooms *rooms, FILE *orders)
{
    struct order order;
    enum reading reading;
    unsigned long line = 1;
    for (; (reading = read_order(orders, &order)) != NO_MORE_ORDERS; line++) {
        if (reading == ORDER)
            write_features(line, order.S, ask(network, &order, rooms), rooms);
        else
            write_refusal(line, MPAKIROVU_MISSHAPEN);
    }
}

/* ---- What is held while the orders are answered: a function takes one thing, and gives it back ---- */

static enum status with_rooms(const struct network *network, const struct rooms *rooms,
    const char *orders_path)
{
    enum status status = DONE;
    FILE *orders = fopen(orders_path, "rb");
    if (orders == NULL)
        return fail(orders_path, strerror(errno));
    answer_orders(network, rooms, orders);
    if (ferror(orders))
        status = fail(orders_path, strerror(errno));
    fclose(orders);
    return status;
}

/* The casts let this file be compiled as C++ too. */
static int allocate(struct rooms *rooms, size_t places, size_t steps)
{
    rooms->places = places;
    rooms->steps = steps;
    rooms->weight = (uint32_t *)malloc(MPAKIROVU_WEIGHT_ENTRIES(places) * sizeof *rooms->weight);
    rooms->count = (uint16_t *)malloc(MPAKIROVU_COUNT_ENTRIES(places) * sizeof *rooms->count);
    rooms->choice = (uint16_t *)malloc(MPAKIROVU_CHOICE_ENTRIES(places) * sizeof *rooms->choice);
    rooms->step = (uint16_t *)malloc(MPAKIROVU_STEP_ENTRIES(steps) * sizeof *rooms->step);
    rooms->text = (uint8_t *)malloc(MPAKIROVU_TRACE_BYTES(steps));
    return rooms->weight && rooms->count && rooms->choice && rooms->step && rooms->text;
}

static void release(const struct rooms *rooms)
{
    free(rooms->weight);
    free(rooms->count);
    free(rooms->choice);
    free(rooms->step);
    free(rooms->text);
}

/* Lends the normal writer no text room: it then judges the file, and 11 says accepted. Only an accepted
   file tells how many places there are. */
static enum status with_network(const struct network *network, const char *orders_path)
{
    struct rooms rooms;
    enum status status;
    const struct mpakirovu_outcome judged = mpakirovu_normal(network->file, network->length, NULL, 0);
    if (judged.number != MPAKIROVU_TEXT_TOO_LONG) {
        fprintf(stderr, "features: network refused: outcome %" PRIu32 " %s, line %" PRIu32 "\n",
            judged.number, outcome_name(judged.number), judged.line);
        return REFUSED;
    }
    if (allocate(&rooms, places(network->file), MPAKIROVU_LONGEST))
        status = with_rooms(network, &rooms, orders_path);
    else
        status = fail("rooms", "out of memory");
    release(&rooms);
    return status;
}

/* Reads into file at most size bytes. */
static enum status read_file(const char *path, uint8_t *file, size_t size, size_t *length)
{
    enum status status = DONE;
    FILE *stream = fopen(path, "rb");
    if (stream == NULL)
        return fail(path, strerror(errno));
    *length = fread(file, 1, size, stream);
    if (ferror(stream))
        status = fail(path, strerror(errno));
    fclose(stream);
    return status;
}

/* One byte more than a network file may have is enough to be refused as too long. */
static enum status features(const char *network_path, const char *orders_path)
{
    const size_t size = MPAKIROVU_MOST_BYTES + 1;
    uint8_t *file = (uint8_t *)malloc(size);
    struct network network = { file, 0 };
    enum status status;
    if (file == NULL)
        return fail("network", "out of memory");
    status = read_file(network_path, file, size, &network.length);
    if (status == DONE)
        status = with_network(&network, orders_path);
    free(file);
    return status;
}

int main(int argc, char **argv)
{
    enum status status;
    if (argc != 3)
        return fail("usage", "features NETWORK ORDERS");
    status = features(argv[1], argv[2]);
    if (fflush(stdout) != 0 || ferror(stdout))
        return fail("standard output", "not all was written");
    return status;
}
