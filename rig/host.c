/* A host to start from: it builds a plan, makes the net, steps it, asks whom a call reaches, tells why a reply was not taken, and
 * takes the net through the working form.
 *
 * The net is the example of the requirements: three stations in a line, 0-1-2, and one group, "A", with root 0.
 * Nothing is read, and what is printed is always the same: rig/build runs this host and holds it to rig/host.expected.
 */
#include "kepalumbi.h"

#include <stdio.h>
#include <stdlib.h>
#include <string.h>

/* ---- Refusals */

/* What each outcome means, by its number. */
static const char *const outcome_texts[] = {
    [KEP_ACCEPTED] = "accepted",
    [KEP_NET_NOT_WELL_SHAPED] = "the net is not 15,728 bytes or not well shaped in this form",
    [KEP_NO_SUCH_ACTION] = "there is no action of this number",
    [KEP_OPERAND] = "an operand is out of range, not a neighbour, or unused and not zero",
    [KEP_NOT_ENABLED] = "the action is not enabled",
    [KEP_CLOCK_FULL] = "the root's clock is at its end",
    [KEP_CHANNEL_FULL] = "the channel already holds 8 messages",
    [KEP_NO_SUCH_GROUP] = "no group has exactly this name",
    [KEP_NOT_ON_THE_TREE] = "the caller has no agreed chain to the root",
    [KEP_PLAN_NOT_WELL_SHAPED] = "the plan is not 112 bytes or not well shaped",
    [KEP_SIZE] = "the lent output is not of the stated size",
    [KEP_SCRIPT_NOT_FOURS] = "the script's length is not a multiple of 4",
    [KEP_SCRIPT_TOO_LONG] = "the script is longer than 16,384 bytes",
};

/* A result carries more than the outcome, so it is never compared with zero as a whole. */
static int accepted(uint32_t result)
{
    return KEP_OUTCOME(result) == KEP_ACCEPTED;
}

/* A later library may have numbers that this host has no words for. */
static const char *text_of(unsigned number, const char *const *texts, size_t count)
{
    return number < count && texts[number] ? texts[number] : "for a reason that this host does not know";
}

static void print_outcome(uint32_t result)
{
    unsigned outcome = KEP_OUTCOME(result);

    if (accepted(result))
        printf("accepted\n");
    else
        printf("refused %u, %s\n", outcome, text_of(outcome, outcome_texts, sizeof outcome_texts / sizeof *outcome_texts));
}

static void tell(const char *what, uint32_t result)
{
    printf("%s: ", what);
    print_outcome(result);
}

/* For what cannot go on after a refusal: says what was refused, and ends the host. */
static void must(const char *what, uint32_t result)
{
    if (accepted(result))
        return;
    tell(what, result);
    exit(1);
}

/* ---- The plan, as bytes */

/* Where things stand in a plan; docs/FORMATS.md has the table. */
enum {
    AT_LENGTH = 0,
    AT_VERSION = 4,
    AT_STATIONS = 5,
    AT_GROUPS = 6,
    AT_GROUP = 8,
    GROUP_BYTES = 18, /* name length, 16 name bytes, root */
    AT_MASKS = 80,
    STATIONS_MOST = 16,
    GROUPS_MOST = 4,
    NAME_MOST = 16
};

/* The model refuses a plan that is not well shaped, whatever it holds. The helpers below ask only for what keeps them from
 * writing beside the plan. */
static void need(int holds, const char *what)
{
    if (holds)
        return;
    printf("the plan cannot be written: %s\n", what);
    exit(1);
}

/* The first helper to call: a plan of this many stations, with no cable and no group yet. */
static void put_stations(uint8_t *plan, unsigned stations)
{
    need(stations >= 1 && stations <= STATIONS_MOST, "a net has 1 to 16 stations");
    memset(plan, 0, KEP_PLAN_BYTES);
    plan[AT_LENGTH + 3] = KEP_PLAN_BYTES; /* big-endian: the last of its four bytes is the lowest */
    plan[AT_VERSION] = 1;
    plan[AT_STATIONS] = (uint8_t)stations;
}

/* One station's neighbours are a mask of two bytes, the high one first: bit j is station j. */
static void put_neighbour(uint8_t *plan, unsigned station, unsigned neighbour)
{
    uint8_t *mask = plan + AT_MASKS + 2 * station;

    mask[neighbour < 8 ? 1 : 0] |= (uint8_t)(1u << neighbour % 8);
}

/* A cable joins both its ends, so it stands in both their masks. */
static void put_cable(uint8_t *plan, unsigned one, unsigned other)
{
    need(one < plan[AT_STATIONS] && other < plan[AT_STATIONS], "a cable ends at a station that there is not");
    put_neighbour(plan, one, other);
    put_neighbour(plan, other, one);
}

/* Groups are numbered from 0 in the order in which they are put. */
static void put_group(uint8_t *plan, const char *name, unsigned root)
{
    size_t length = strlen(name);
    uint8_t *group = plan + AT_GROUP + GROUP_BYTES * plan[AT_GROUPS];

    need(plan[AT_GROUPS] < GROUPS_MOST, "a net has at most 4 groups");
    need(length >= 1 && length <= NAME_MOST, "a name has 1 to 16 bytes");
    group[0] = (uint8_t)length;
    memcpy(group + 1, name, length);
    group[1 + NAME_MOST] = (uint8_t)root;
    plan[AT_GROUPS]++;
}

static void put_example(uint8_t *plan)
{
    put_stations(plan, 3);
    put_cable(plan, 0, 1);
    put_cable(plan, 1, 2);
    put_group(plan, "A", 0);
}

/* ---- Steps, one at a time and in a run */

enum { TICK = 1, ASK, REFRESH, DELIVER, LOSE, GIVE_UP, DROP_CHILD, MEMBER, ROUTE };

/* A step or a run of the library's: there is one for each form of the net. */
typedef uint32_t step_function(uint8_t *net, size_t net_len, uint8_t action, uint8_t a, uint8_t b, uint8_t c);
typedef uint32_t run_function(uint8_t *net, size_t net_len, const uint8_t *script, size_t script_len, uint8_t *tally,
                              size_t tally_len);

/* What became of a reply, by the number of its case. */
static const char *const case_texts[] = {
    [KEP_ADOPTED] = "the reply is adopted",
    [KEP_NOT_TENTATIVE] = "the reply is not from the tentative parent",
    [KEP_UNCONNECTED] = "the reply is from a station that is not connected",
    [KEP_NOT_GREATER] = "the reply's clock is not greater",
};

static void print_stepped(uint32_t result)
{
    unsigned number = KEP_CASE(result);

    if (number == KEP_NO_REPLY)
        print_outcome(result);
    else
        printf("accepted, case %u, %s\n", number, text_of(number, case_texts, sizeof case_texts / sizeof *case_texts));
}

static void step_in(step_function *take, uint8_t *net, const char *what, uint8_t action, uint8_t a, uint8_t b, uint8_t c)
{
    printf("%s (%d %d %d %d): ", what, action, a, b, c);
    print_stepped(take(net, KEP_NET_BYTES, action, a, b, c));
}

static void step(uint8_t *net, const char *what, uint8_t action, uint8_t a, uint8_t b, uint8_t c)
{
    step_in(kep_step, net, what, action, a, b, c);
}

static void step_by_step(uint8_t *net)
{
    step(net, "station 2 reaches 0 by way of 1", ROUTE, 2, 0, 1);
    step(net, "station 1 reaches 0 directly", ROUTE, 1, 0, 0);
    step(net, "the root of group 0 ticks", TICK, 0, 0, 0);
    step(net, "station 2 becomes a member", MEMBER, 0, 2, 1);
    step(net, "station 2 asks", ASK, 0, 2, 0);
    /* A refused step changes nothing: the host goes on with the net as it was. */
    step(net, "the root asks", ASK, 0, 0, 0);
    step(net, "station 1 hears the request", DELIVER, 2, 1, 0);
    step(net, "station 2 hears the reply", DELIVER, 1, 2, 0);
}

/* The rest of the example: station 1 joins in turn, and station 2 asks again. */
static const uint8_t rest[] = {
    ASK, 0, 1, 0, DELIVER, 1, 0, 0, DELIVER, 0, 1, 0,
    ASK, 0, 2, 0, DELIVER, 2, 1, 0, DELIVER, 1, 2, 0,
};

/* A count of the tally, or a clock: four bytes, the highest first. */
static unsigned long number_at(const uint8_t *at)
{
    return (unsigned long)at[0] << 24 | (unsigned long)at[1] << 16 | (unsigned long)at[2] << 8 | at[3];
}

static void run_in(run_function *run, uint8_t *net, const char *what, const uint8_t *script, size_t script_len)
{
    static const char *const names[] = {"accepted", "refused",       "sent",        "delivered", "lost",
                                        "adopted",  "not tentative", "unconnected", "not greater"};
    uint8_t tally[KEP_TALLY_BYTES];
    unsigned i;

    must(what, run(net, KEP_NET_BYTES, script, script_len, tally, sizeof tally));
    printf("%s of %u steps:", what, (unsigned)(script_len / 4));
    for (i = 0; i < sizeof tally / 4; i++)
        printf("%s %s %lu", i == 5 ? ", replies" : "", names[i], number_at(tally + 4 * i));
    printf("\n");
}

/* Five counts are no tally. A run that is refused takes no step. */
static void run_into_five_counts(uint8_t *net)
{
    uint8_t tally[20];

    tell("a run with a tally of 20 bytes", kep_run(net, KEP_NET_BYTES, rest, sizeof rest, tally, sizeof tally));
}

/* ---- Groups by name, and calls */

static uint32_t find(const uint8_t *net, const char *name)
{
    uint32_t result = kep_find(net, KEP_NET_BYTES, (const uint8_t *)name, strlen(name));

    printf("group \"%s\": ", name);
    if (accepted(result))
        printf("number %u\n", (unsigned)KEP_GROUP(result));
    else
        print_outcome(result);
    return result;
}

/* One entry of the reach list: station, parent, depth. */
static void print_reached(const uint8_t *entry)
{
    if (entry[1] == KEP_NIL)
        printf("  station %d, the root\n", entry[0]);
    else
        printf("  station %d, below station %d, depth %d\n", entry[0], entry[1], entry[2]);
}

static void call(const uint8_t *net, uint8_t group, uint8_t station)
{
    uint8_t list[KEP_LIST_BYTES];
    uint32_t result = kep_call(net, KEP_NET_BYTES, group, station, list, sizeof list);
    unsigned i;

    printf("station %d calls group %d: ", station, group);
    if (!accepted(result)) {
        print_outcome(result);
        return; /* the list has not been written, so there is nothing to read in it */
    }
    printf("%u reached, %u copies\n", (unsigned)KEP_REACHED(result), (unsigned)KEP_COPIES(result));
    for (i = 0; i < KEP_REACHED(result); i++)
        print_reached(list + 3 * i);
}

/* ---- Replies that are not taken */

/* Station 2 leaves before the reply is there, and then has no tentative parent. When it comes back, it still has its clock, and
 * that of station 1 is not greater until the root ticks. */
static void leave_and_come_back(uint8_t *net)
{
    step(net, "station 2 asks", ASK, 0, 2, 0);
    step(net, "station 1 hears the request", DELIVER, 2, 1, 0);
    step(net, "station 2 leaves", MEMBER, 0, 2, 0);
    step(net, "station 2 hears the reply", DELIVER, 1, 2, 0);
    step(net, "station 2 becomes a member", MEMBER, 0, 2, 1);
    step(net, "station 2 asks", ASK, 0, 2, 0);
    step(net, "station 1 hears the request", DELIVER, 2, 1, 0);
    step(net, "station 2 hears the reply", DELIVER, 1, 2, 0);
}

/* ---- The working form */

/* Where the entries stand in it: those of one station side by side, one for each group. */
enum {
    AT_ENTRIES = 368,
    ENTRY_BYTES = 12,
    STATION_BYTES = GROUPS_MOST * ENTRY_BYTES,
    ENTRY_CLOCK = 4 /* in an entry, behind parent, tentative parent, member and a zero */
};

static void print_station(const uint8_t *work, unsigned station)
{
    const uint8_t *entry = work + AT_ENTRIES + STATION_BYTES * station;
    unsigned group;

    for (group = 0; group < work[AT_GROUPS]; group++, entry += ENTRY_BYTES)
        printf("  station %u in group %u: parent %d, clock %lu\n", station, group, entry[0], number_at(entry + ENTRY_CLOCK));
}

/* The root ticks, and both others hear of it, station 1 first. The root may not ask. */
static const uint8_t heard[] = {ASK, 0, 1, 0, DELIVER, 1, 0, 0, DELIVER, 0, 1, 0, ASK, 0, 2, 0, DELIVER, 2, 1, 0};

static void hear(step_function *take, run_function *run, uint8_t *net)
{
    step_in(take, net, "the root of group 0 ticks", TICK, 0, 0, 0);
    step_in(take, net, "the root asks", ASK, 0, 0, 0);
    run_in(run, net, "a run", heard, sizeof heard);
    step_in(take, net, "station 2 hears the reply", DELIVER, 1, 2, 0);
}

/* Neither form passes for the other, and a refusal changes nothing: net and work can be used as before. */
static void exchange_forms(uint8_t *net, uint8_t *work)
{
    static uint8_t other[KEP_NET_BYTES];
    uint8_t tally[KEP_TALLY_BYTES];

    step_in(kep_step, work, "a step that takes the working form for the saved one", TICK, 0, 0, 0);
    step_in(kep_working_step, net, "a step that takes the saved form for the working one", TICK, 0, 0, 0);
    tell("a run that takes the working form for the saved one",
         kep_run(work, KEP_NET_BYTES, heard, sizeof heard, tally, sizeof tally));
    tell("a run that takes the saved form for the working one",
         kep_working_run(net, KEP_NET_BYTES, heard, sizeof heard, tally, sizeof tally));
    tell("the working form into the working form", kep_to_working(work, KEP_NET_BYTES, other, sizeof other));
    tell("the saved form into the saved form", kep_to_saved(net, KEP_NET_BYTES, other, sizeof other));
    tell("the working form into a byte less", kep_to_saved(work, KEP_NET_BYTES, other, sizeof other - 1));
}

static void both_forms(uint8_t *net)
{
    static uint8_t work[KEP_NET_BYTES], saved[KEP_NET_BYTES];

    tell("the net into the working form", kep_to_working(net, KEP_NET_BYTES, work, sizeof work));
    hear(kep_working_step, kep_working_run, work);
    print_station(work, 2);
    exchange_forms(net, work);
    tell("the net into the saved form", kep_to_saved(work, sizeof work, saved, sizeof saved));

    printf("the same in the saved form\n");
    hear(kep_step, kep_run, net);
    printf("the nets are %s\n", memcmp(net, saved, sizeof saved) == 0 ? "the same" : "not the same");
}

int main(void)
{
    static uint8_t plan[KEP_PLAN_BYTES], net[KEP_NET_BYTES];
    uint32_t found;

    put_example(plan);
    must("the fresh net", kep_fresh(plan, sizeof plan, net, sizeof net));

    step_by_step(net);
    call(net, 0, 2); /* too early: station 2 has no parent yet */
    run_into_five_counts(net);
    run_in(kep_run, net, "a run", rest, sizeof rest);

    find(net, "AB"); /* a name is found whole or not at all */
    found = find(net, "A");
    must("group A", found);
    call(net, (uint8_t)KEP_GROUP(found), 2);

    leave_and_come_back(net);
    both_forms(net);

    return fflush(stdout) == 0 ? 0 : 1; /* a full disk is not a good end */
}
