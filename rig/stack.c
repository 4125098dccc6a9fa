/* Measures how much stack the library's functions need, and fails where that is more than kepalumbi.h says.
 *
 * A stretch of the stack is filled with one byte, a function is called, and the lowest byte that is another now tells how deep it
 * went. A call visits the tree of a group, one level for each hop, so it is tried on chains of 16 stations, in many orders. What
 * the header says has room for a dynamic linker too, which takes some 3 KB where it binds memset at the first call that uses it.
 */
#include "kepalumbi.h"

#include <stdio.h>
#include <string.h>

enum { STATIONS = 16, ROOM = 1 << 16, FILLER = 0xa5, ORDERS = 100 };
enum { TICK = 1, ASK = 2, DELIVER = 4, MEMBER = 8, ROUTE = 9 };

static uint8_t plan[KEP_PLAN_BYTES], net[KEP_NET_BYTES], work[KEP_NET_BYTES], saved[KEP_NET_BYTES];
static uint8_t script[1024], tally[KEP_TALLY_BYTES], list[KEP_LIST_BYTES];
static size_t script_len;

/* The compiler is not to know what becomes of the bytes. */
#define LEND(room) __asm__ volatile("" : : "r"(room) : "memory")

/* These two have the same frame, so that the second finds what is left of the first. */
static __attribute__((noinline)) void fill(void)
{
    uint8_t room[ROOM];

    memset(room, FILLER, sizeof room);
    LEND(room);
}

static __attribute__((noinline)) unsigned used(void)
{
    uint8_t room[ROOM];
    size_t i = 0;

    LEND(room);
    while (i < sizeof room && room[i] == FILLER)
        i++;
    return (unsigned)(sizeof room - i);
}

/* The functions in the order of kepalumbi.h, and the most of each. */
enum { FRESH, STEP, RUN, FIND, CALL, TO_WORKING, TO_SAVED, WORKING_STEP, WORKING_RUN, FUNCTIONS };
static const char *const names[FUNCTIONS] = {"fresh",      "step",     "run",          "find",       "call",
                                             "to_working", "to_saved", "working_step", "working_run"};
static unsigned most[FUNCTIONS];

static void keep(int function)
{
    unsigned now = used();

    if (now > most[function])
        most[function] = now;
}

static void put_step(unsigned action, unsigned a, unsigned b, unsigned c)
{
    uint8_t step[4] = {(uint8_t)action, (uint8_t)a, (uint8_t)b, (uint8_t)c};

    memcpy(script + script_len, step, sizeof step);
    script_len += sizeof step;
}

static void put_neighbour(unsigned station, unsigned neighbour)
{
    plan[80 + 2 * station + (neighbour < 8 ? 1 : 0)] |= (uint8_t)(1u << neighbour % 8);
}

/* A chain of stations in this order, and the script by which each joins behind the one before it. */
static void put_chain(const uint8_t *order)
{
    static const uint8_t head[10] = {0, 0, 0, KEP_PLAN_BYTES, 1, STATIONS, 1, 0, 1, 'A'};
    unsigned i;

    memset(plan, 0, sizeof plan);
    memcpy(plan, head, sizeof head);
    plan[25] = order[0];
    script_len = 0;
    put_step(TICK, 0, 0, 0);
    for (i = 1; i < STATIONS; i++) {
        put_neighbour(order[i - 1], order[i]);
        put_neighbour(order[i], order[i - 1]);
        put_step(ROUTE, order[i], order[0], order[i - 1]);
        put_step(MEMBER, 0, order[i], 1);
        put_step(ASK, 0, order[i], 0);
        put_step(DELIVER, order[i], order[i - 1], 0);
        put_step(DELIVER, order[i - 1], order[i], 0);
    }
}

typedef uint32_t step_function(uint8_t *net, size_t net_len, uint8_t action, uint8_t a, uint8_t b, uint8_t c);

/* Each action, with operands that name a group, a station and its neighbour, or two neighbours, either way round: so the last
 * station asks the one before it, and hears its reply. 1 if it does. */
static int measure_steps(int function, step_function *step, uint8_t *stepped, const uint8_t *order)
{
    uint8_t action, last = order[STATIONS - 1], before = order[STATIONS - 2];
    int heard = 0;

    for (action = 0; action <= ROUTE + 1; action++) {
        fill();
        step(stepped, KEP_NET_BYTES, action, 0, last, action == 7 ? before : 0);
        keep(function);
        fill();
        step(stepped, KEP_NET_BYTES, action, last, before, 0);
        keep(function);
        fill();
        heard |= KEP_CASE(step(stepped, KEP_NET_BYTES, action, before, last, 0)) != KEP_NO_REPLY;
        keep(function);
    }
    return heard;
}

/* Runs the fresh net in both forms: 1 if it comes to the same. */
static int measure_runs(void)
{
    fill();
    kep_to_working(net, sizeof net, work, sizeof work);
    keep(TO_WORKING);
    fill();
    kep_run(net, sizeof net, script, script_len, tally, sizeof tally);
    keep(RUN);
    fill();
    kep_working_run(work, sizeof work, script, script_len, tally, sizeof tally);
    keep(WORKING_RUN);
    fill();
    kep_to_saved(work, sizeof work, saved, sizeof saved);
    keep(TO_SAVED);
    return memcmp(net, saved, sizeof net) == 0;
}

/* 1 if both forms come to the same, the call reaches the whole chain, and a reply is heard. */
static int measure(const uint8_t *order)
{
    uint32_t result;
    int well;

    put_chain(order);
    fill();
    kep_fresh(plan, sizeof plan, net, sizeof net);
    keep(FRESH);
    well = measure_runs();
    fill();
    kep_find(net, sizeof net, (const uint8_t *)"A", 1);
    keep(FIND);
    fill();
    result = kep_call(net, sizeof net, 0, order[STATIONS - 1], list, sizeof list);
    keep(CALL);
    well &= measure_steps(STEP, kep_step, net, order);
    well &= measure_steps(WORKING_STEP, kep_working_step, work, order);
    return well && KEP_OUTCOME(result) == KEP_ACCEPTED && KEP_REACHED(result) == STATIONS;
}

/* Exchanges two stations of the order, at random. */
static void change(uint8_t *order)
{
    static uint32_t state = 1;
    unsigned i, j;
    uint8_t one;

    state = state * 1664525u + 1013904223u;
    i = state >> 24 & 15u;
    j = state >> 16 & 15u;
    one = order[i];
    order[i] = order[j];
    order[j] = one;
}

static unsigned limit(unsigned function)
{
    return function == CALL ? KEP_CALL_STACK_BYTES : KEP_STACK_BYTES;
}

int main(void)
{
    uint8_t order[STATIONS];
    unsigned i;
    int well = 1;

    for (i = 0; i < STATIONS; i++)
        order[i] = (uint8_t)i;
    for (i = 0; i < ORDERS; i++) {
        well &= measure(order);
        change(order);
    }
    printf("stack, in bytes:");
    for (i = 0; i < FUNCTIONS; i++) {
        printf("%s kep_%s %u of %u", i > 0 ? "," : "", names[i], most[i], limit(i));
        well &= most[i] <= limit(i);
    }
    printf("\n");
    return well && fflush(stdout) == 0 ? 0 : 1;
}
