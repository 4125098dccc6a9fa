/* Steps for a tracer to look at: rig/bytes runs this under valgrind, and rig/bytes.awk counts what they read and write of the net.
 *
 * Each step is traced as a run of a script of one step. A run first tests the whole net, so the same run with an empty script is
 * traced before it: what the step itself reads is the difference.
 *
 * Standard output tells where the net and the mark stand, then of each window in turn:
 *
 *   net ADDRESS+LENGTH mark ADDRESS
 *   NUMBER NAME FORM k i PART PLACES..
 *
 * A window lies between two stores to the mark. In it the message at position i is removed from a channel of k. PART is step; or
 * empty, for the run whose reads are subtracted from those of the steps after it; or plain, for code that is not the library's.
 * PLACES are the bytes that a step is to write, all of them and no others, each as OFFSET+LENGTH within the net.
 */
#include "kepalumbi.h"

#include <stdio.h>
#include <stdlib.h>
#include <string.h>

enum { FROM = 0, TO = 1, ROOT = 2, STATIONS = 3, GROUPS = 4, CHANNEL_HOLDS = 8 };
enum { TICK = 1, ASK = 2, DELIVER = 4, LOSE = 5, MEMBER = 8, ROUTE = 9 };
enum { REQUEST = 1, REPLY = 2 };

/* Where things stand in a net; docs/FORMATS.md has the tables. */
enum {
    AT_ENTRIES = 368,
    AT_CHANNELS = 1136,
    CHANNEL_BYTES = 57,
    MESSAGE_BYTES = 7,
    ENTRY_PARENT = 0,
    ENTRY_CLOCK = 4,
    ENTRY_CHILDREN = 8,
    ENTRY_WAITING = 10
};

typedef uint32_t run_function(uint8_t *net, size_t net_len, const uint8_t *script, size_t script_len, uint8_t *tally,
                              size_t tally_len);

/* A form of the net, and how far the entry of one group or station is from that of the next. */
struct form {
    const char *name;
    run_function *run;
    unsigned group_bytes, station_bytes;
};

enum { SAVED, WORKING, FORMS };
static const struct form forms[FORMS] = {
    [SAVED] = {"saved", kep_run, 192, 12},
    [WORKING] = {"working", kep_working_run, 12, 48},
};

/* A kind of step on the channel from 0 to 1: the oldest message there, the case of the reply that is heard, and the nine counts
 * of the tally. */
struct kind {
    const char *name;
    uint8_t action, oldest, heard, tally[KEP_TALLY_BYTES / 4];
};

static const struct kind kinds[] = {
    {"request", DELIVER, REQUEST, KEP_NO_REPLY, {1, 0, 1, 1, 0, 0, 0, 0, 0}},
    {"reply", DELIVER, REPLY, KEP_UNCONNECTED, {1, 0, 0, 1, 0, 0, 0, 1, 0}},
    {"adopted", DELIVER, REPLY, KEP_ADOPTED, {1, 0, 0, 1, 0, 1, 0, 0, 0}},
    {"lost", LOSE, REQUEST, KEP_NO_REPLY, {1, 0, 0, 0, 1, 0, 0, 0, 0}},
};
enum { KINDS = sizeof kinds / sizeof *kinds };

/* One step to trace: the kind, the form, and the channel as it is before. */
struct traced {
    const struct kind *kind;
    const struct form *form;
    unsigned k, i;
};

static uint8_t net[KEP_NET_BYTES];           /* the one that the tracer looks at */
static uint8_t before[FORMS][KEP_NET_BYTES]; /* what it is set to before each step, in each form */
static uint8_t script[1024];
static size_t script_len;
static volatile uint32_t mark;

static void need(int holds, const char *what, const char *name, unsigned k)
{
    if (holds)
        return;
    fprintf(stderr, "bytes: %s, %u in the channel: %s\n", name, k, what);
    exit(1);
}

/* ---- The nets, by steps from a fresh one */

static size_t channel_at(unsigned from, unsigned to)
{
    return AT_CHANNELS + CHANNEL_BYTES * (16 * from + to);
}

static void put_step(unsigned action, unsigned a, unsigned b, unsigned c)
{
    uint8_t step[4] = {(uint8_t)action, (uint8_t)a, (uint8_t)b, (uint8_t)c};

    memcpy(script + script_len, step, sizeof step);
    script_len += sizeof step;
}

/* Three stations, each cabled to both others, and four groups with the third for their root. */
static void make_fresh(const struct kind *kind, unsigned k)
{
    uint8_t plan[KEP_PLAN_BYTES] = {0, 0, 0, KEP_PLAN_BYTES, 1, STATIONS, GROUPS};
    unsigned i;

    for (i = 0; i < GROUPS; i++) {
        plan[8 + 18 * i] = 1;
        plan[9 + 18 * i] = (uint8_t)('A' + i);
        plan[25 + 18 * i] = ROOT;
    }
    for (i = 0; i < STATIONS; i++)
        plan[81 + 2 * i] = (uint8_t)(7u & ~(1u << i));
    need(kep_fresh(plan, sizeof plan, before[SAVED], KEP_NET_BYTES) == KEP_ACCEPTED, "there is no fresh net", kind->name, k);
}

/* Station 0 gets a parent and a clock of 1 in this group, so that its reply is one to adopt. */
static void put_connection(unsigned group)
{
    put_step(TICK, group, 0, 0);
    put_step(ROUTE, FROM, ROOT, ROOT);
    put_step(ASK, group, FROM, 0);
    put_step(DELIVER, FROM, ROOT, 0);
    put_step(DELIVER, ROOT, FROM, 0);
    put_step(ROUTE, FROM, ROOT, TO);
}

/* Requests and replies in turn, k of them on their way from 0 to 1. What would be later replies are left as requests on their way
 * from 1 to 0, so that the reply to a request that is delivered comes to stand in various slots. The groups change with k too. */
static void put_messages(const struct kind *kind, unsigned k)
{
    unsigned i, group;
    int is_reply = kind->oldest == REPLY;

    for (i = 0; i < CHANNEL_HOLDS; i++, is_reply = !is_reply) {
        group = (k + i / 2) % GROUPS;
        if (is_reply)
            put_step(ASK, group, TO, 0);
        else if (i < k)
            put_step(ASK, group, FROM, 0);
        if (is_reply && i < k)
            put_step(DELIVER, TO, FROM, 0);
    }
}

static int tally_is(const uint8_t *tally, const uint8_t *counts)
{
    unsigned i;
    int is = 1;

    for (i = 0; i < KEP_TALLY_BYTES / 4; i++)
        is &= tally[4 * i] == 0 && tally[4 * i + 1] == 0 && tally[4 * i + 2] == 0 && tally[4 * i + 3] == counts[i];
    return is;
}

static void prepare(const struct kind *kind, unsigned k)
{
    uint8_t tally[KEP_TALLY_BYTES];
    uint32_t result;
    unsigned i;

    make_fresh(kind, k);
    script_len = 0;
    put_step(ROUTE, FROM, ROOT, TO);
    put_step(ROUTE, TO, ROOT, FROM);
    for (i = 0; i < GROUPS; i++) {
        put_step(MEMBER, i, FROM, 1);
        put_step(MEMBER, i, TO, 1);
    }
    if (kind->heard == KEP_ADOPTED)
        put_connection(k % GROUPS);
    put_messages(kind, k);
    result = kep_run(before[SAVED], KEP_NET_BYTES, script, script_len, tally, sizeof tally);
    need(result == KEP_ACCEPTED && tally[3] == script_len / 4, "a step on the way there is refused", kind->name, k);
    need(before[SAVED][channel_at(FROM, TO)] == k, "the channel holds another number", kind->name, k);
    result = kep_to_working(before[SAVED], KEP_NET_BYTES, before[WORKING], KEP_NET_BYTES);
    need(result == KEP_ACCEPTED, "there is no working form", kind->name, k);
    memcpy(net, before[SAVED], sizeof net);
    result = kep_step(net, sizeof net, kind->action, FROM, TO, 0);
    need(result == (KEP_ACCEPTED | (uint32_t)kind->heard << 8), "the step answers another case", kind->name, k);
}

/* ---- Windows */

/* The compiler is to move no access to the net over a mark. */
static void put_mark(void)
{
    __asm__ volatile("" : : : "memory");
    mark = 1;
    __asm__ volatile("" : : : "memory");
}

static void print_window(const char *name, const char *form, unsigned k, unsigned i, const char *part)
{
    static unsigned windows;

    printf("%u %s %s %u %u %s", ++windows, name, form, k, i, part);
}

static void print_place(size_t offset, size_t length)
{
    printf(" %u+%u", (unsigned)offset, (unsigned)length);
}

/* What the step is to write: the slots from i on and the count; of a delivery, what its receiver learns, and the reply. */
static void print_places(const struct traced *it)
{
    const uint8_t *was = before[it->form - forms];
    size_t channel = channel_at(FROM, TO), back = channel_at(TO, FROM);
    size_t entry = AT_ENTRIES + it->form->group_bytes * was[channel + 2] + it->form->station_bytes * TO;

    print_place(channel, 1);
    print_place(channel + 1 + MESSAGE_BYTES * it->i, MESSAGE_BYTES * (it->k - it->i));
    if (it->kind->action == LOSE)
        return;
    if (it->kind->heard == KEP_NO_REPLY) {
        print_place(entry + ENTRY_CHILDREN, 2);
        print_place(back, 1);
        print_place(back + 1 + MESSAGE_BYTES * was[back], MESSAGE_BYTES);
        return;
    }
    print_place(entry + ENTRY_WAITING, 2);
    if (it->kind->heard == KEP_ADOPTED) {
        print_place(entry + ENTRY_PARENT, 1);
        print_place(entry + ENTRY_CLOCK, 4);
    }
}

static void trace_run(const struct traced *it, int is_step)
{
    static const uint8_t nothing[KEP_TALLY_BYTES / 4];
    uint8_t step[4] = {it->kind->action, FROM, TO, (uint8_t)it->i}, tally[KEP_TALLY_BYTES];
    uint32_t result;

    print_window(it->kind->name, it->form->name, it->k, it->i, is_step ? "step" : "empty");
    if (is_step)
        print_places(it);
    printf("\n");
    memcpy(net, before[it->form - forms], sizeof net);
    put_mark();
    result = it->form->run(net, sizeof net, step, is_step ? sizeof step : 0, tally, sizeof tally);
    put_mark();
    need(result == KEP_ACCEPTED, "the run is refused", it->kind->name, it->k);
    need(tally_is(tally, is_step ? it->kind->tally : nothing), "the run has another tally", it->kind->name, it->k);
}

static void trace_kind(const struct kind *kind, unsigned k)
{
    struct traced it = {kind, forms, k, 0};

    for (it.form = forms; it.form < forms + FORMS; it.form++) {
        it.i = 0;
        trace_run(&it, 0);
        for (; it.i < (kind->action == LOSE ? k : 1); it.i++)
            trace_run(&it, 1);
    }
}

/* ---- To compare with: the whole channel moved */

/* A volatile byte is read and written by itself. */
static void shift_whole(volatile uint8_t *channel)
{
    unsigned i;

    for (i = 1; i < CHANNEL_BYTES - MESSAGE_BYTES; i++)
        channel[i] = channel[i + MESSAGE_BYTES];
    for (; i < CHANNEL_BYTES; i++)
        channel[i] = 0;
    channel[0] = (uint8_t)(channel[0] - 1);
}

/* It comes to the same as losing the oldest message, which is tried last, on the net that was kept. */
static void trace_whole(const struct kind *kind, unsigned k)
{
    print_window("whole", forms[SAVED].name, k, 0, "plain");
    printf("\n");
    memcpy(net, before[SAVED], sizeof net);
    put_mark();
    shift_whole(net + channel_at(FROM, TO));
    put_mark();
    need(kep_step(before[SAVED], KEP_NET_BYTES, LOSE, FROM, TO, 0) == KEP_ACCEPTED && memcmp(net, before[SAVED], sizeof net) == 0,
         "the whole channel moved comes to another net", kind->name, k);
}

int main(void)
{
    unsigned i, k;

    printf("net 0x%lx+%u mark 0x%lx\n", (unsigned long)(uintptr_t)net, (unsigned)sizeof net, (unsigned long)(uintptr_t)&mark);
    for (i = 0; i < KINDS; i++)
        for (k = 1; k <= CHANNEL_HOLDS; k++) {
            prepare(&kinds[i], k);
            trace_kind(&kinds[i], k);
            if (kinds[i].action == LOSE)
                trace_whole(&kinds[i], k);
        }
    return fflush(stdout) == 0 ? 0 : 1; /* a full disk is not a good end */
}
