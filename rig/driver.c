/* The library's nine functions, served to the comparison: requests come on standard input, answers go to standard
 * output.
 *
 * Numbers of the protocol are 4 bytes, lowest first. A request is a letter and its numbers, then its bytes:
 *
 *   'F' plan_len net_len                plan, net              kep_fresh
 *   'S' net_len count                   net, count times 4     kep_step for each four bytes in turn, all on one net
 *   'R' net_len script_len tally_len    net, script, tally     kep_run
 *   'N' net_len name_len                net, name              kep_find
 *   'C' net_len group station list_len  net, list              kep_call
 *   'W' net_len work_len                net, work              kep_to_working
 *   'B' work_len net_len                work, net              kep_to_saved
 *   's'                                 as 'S'                 kep_working_step
 *   'r'                                 as 'R'                 kep_working_run
 *
 * A net_len of 'N' and 'C' may be 4294967295: then no net is sent, and the call is made on the net of the last 'N' or
 * 'C' that sent one. An answer is one byte, which says how the lent memory fared over the calls of the request
 * (below), then the result of each call, then the bytes that were lent for writing, as they are after the call or
 * calls:
 *
 *   'F' result, net      'S' count results, net      'R' result, net, tally      'N' result      'C' result, list
 *   'W' result, work     'B' result, net             's' and 'r' as 'S' and 'R'
 *
 * The first byte is 0 if all is well, 1 if a byte beside a buffer changed, 2 if a byte changed of a buffer lent for
 * reading. The program ends with status 0 at the end of the input, and with 1 if the input is not a row of whole
 * requests.
 *
 * Each buffer stands in memory of its own, with guard bytes before and after it, and not always at an even address.
 * The only headers used are those that stand in include/ too, so that the program can be made where there are no
 * others.
 */
#include <stddef.h>
#include <stdint.h>
#include <stdio.h>
#include <stdlib.h>
#include <string.h>

#include "kepalumbi.h"

enum { GUARD = 64, LEN_MOST = 1 << 20 };

enum { WELL = 0, BESIDE = 1, READ_ONLY = 2 };

/* Memory lent to one call: guard, bytes, guard; and a copy of the bytes as they were sent. */
struct lent {
    uint8_t *memory;
    uint8_t *bytes;
    uint8_t *sent;
    size_t len;
};

static unsigned lent_before; /* moves each buffer to another alignment */

static void fail(const char *why)
{
    fprintf(stderr, "driver: %s\n", why);
    exit(1);
}

static void read_all(void *to, size_t len)
{
    if (len > 0 && fread(to, 1, len, stdin) != len)
        fail("the input ends within a request");
}

static void write_all(const void *from, size_t len)
{
    if (len > 0 && fwrite(from, 1, len, stdout) != len)
        fail("the answer cannot be written");
}

static uint32_t read_number(void)
{
    uint8_t b[4];
    read_all(b, 4);
    return b[0] | (uint32_t)b[1] << 8 | (uint32_t)b[2] << 16 | (uint32_t)b[3] << 24;
}

static void write_number(uint32_t number)
{
    uint8_t b[4] = {number & 255, number >> 8 & 255, number >> 16 & 255, number >> 24};
    write_all(b, 4);
}

static void *memory_of(size_t len)
{
    void *memory = malloc(len > 0 ? len : 1);
    if (!memory)
        fail("out of memory");
    return memory;
}

static uint8_t guard_byte(size_t place)
{
    return (uint8_t)(0xa5 ^ place);
}

/* The guard after the bytes reaches to the end of the memory, whatever the shift before them. */
static size_t memory_len(size_t len)
{
    return GUARD + 16 + len + GUARD;
}

static void set_guards(struct lent *it)
{
    size_t first = (size_t)(it->bytes - it->memory), all = memory_len(it->len), i;
    for (i = 0; i < first; i++)
        it->memory[i] = guard_byte(i);
    for (i = first + it->len; i < all; i++)
        it->memory[i] = guard_byte(i);
}

static int guards_hold(const struct lent *it)
{
    size_t first = (size_t)(it->bytes - it->memory), all = memory_len(it->len), i;
    int hold = 1;
    for (i = 0; i < first; i++)
        hold &= it->memory[i] == guard_byte(i);
    for (i = first + it->len; i < all; i++)
        hold &= it->memory[i] == guard_byte(i);
    return hold;
}

/* Reads the bytes of one buffer from the request into memory of its own. */
static struct lent lend(size_t len)
{
    struct lent it;
    if (len > LEN_MOST)
        fail("a buffer is too long");
    it.len = len;
    it.memory = memory_of(memory_len(len));
    it.bytes = it.memory + GUARD + lent_before++ % 16;
    it.sent = memory_of(len);
    set_guards(&it);
    read_all(it.sent, len);
    memcpy(it.bytes, it.sent, len);
    return it;
}

static void give_back(struct lent *it)
{
    free(it->memory);
    free(it->sent);
}

static int fared_read(const struct lent *it)
{
    if (!guards_hold(it))
        return BESIDE;
    return memcmp(it->bytes, it->sent, it->len) == 0 ? WELL : READ_ONLY;
}

static int fared_written(const struct lent *it)
{
    return guards_hold(it) ? WELL : BESIDE;
}

/* The first that is not well is told. */
static void write_fared(int a, int b, int c)
{
    uint8_t fared = (uint8_t)(a != WELL ? a : b != WELL ? b : c);
    write_all(&fared, 1);
}

/* Functions that are called alike: those that make a net of other bytes, and the steps and runs of both forms. */
typedef uint32_t make_net(const uint8_t *from, size_t from_len, uint8_t *net, size_t net_len);
typedef uint32_t step_net(uint8_t *net, size_t net_len, uint8_t action, uint8_t a, uint8_t b, uint8_t c);
typedef uint32_t run_net(uint8_t *net, size_t net_len, const uint8_t *script, size_t script_len, uint8_t *tally,
                         size_t tally_len);

static void serve_made(make_net *make)
{
    size_t from_len = read_number(), net_len = read_number();
    struct lent from = lend(from_len), net = lend(net_len);
    uint32_t result = make(from.bytes, from.len, net.bytes, net.len);
    write_fared(fared_read(&from), fared_written(&net), WELL);
    write_number(result);
    write_all(net.bytes, net.len);
    give_back(&from);
    give_back(&net);
}

static void serve_steps(step_net *take)
{
    size_t net_len = read_number(), count = read_number(), i;
    struct lent net = lend(net_len), steps = lend(count <= LEN_MOST / 4 ? 4 * count : LEN_MOST + 1);
    uint32_t *results = memory_of(count * sizeof *results);
    int fared = WELL;
    for (i = 0; i < count; i++) {
        const uint8_t *step = steps.bytes + 4 * i;
        results[i] = take(net.bytes, net.len, step[0], step[1], step[2], step[3]);
        if (fared == WELL)
            fared = fared_written(&net);
    }
    write_fared(fared, WELL, WELL);
    for (i = 0; i < count; i++)
        write_number(results[i]);
    write_all(net.bytes, net.len);
    free(results);
    give_back(&net);
    give_back(&steps);
}

static void serve_run(run_net *run)
{
    size_t net_len = read_number(), script_len = read_number(), tally_len = read_number();
    struct lent net = lend(net_len), script = lend(script_len), tally = lend(tally_len);
    uint32_t result = run(net.bytes, net.len, script.bytes, script.len, tally.bytes, tally.len);
    write_fared(fared_written(&net), fared_read(&script), fared_written(&tally));
    write_number(result);
    write_all(net.bytes, net.len);
    write_all(tally.bytes, tally.len);
    give_back(&net);
    give_back(&script);
    give_back(&tally);
}

static struct lent kept; /* the net of the last 'N' or 'C' that sent one */

static void keep_net(uint32_t net_len)
{
    if (net_len == UINT32_MAX) {
        if (!kept.memory)
            fail("no net was sent before");
        return;
    }
    if (kept.memory)
        give_back(&kept);
    kept = lend(net_len);
}

static void serve_find(void)
{
    uint32_t net_len = read_number(), name_len = read_number(), result;
    struct lent name;
    keep_net(net_len);
    name = lend(name_len);
    result = kep_find(kept.bytes, kept.len, name.bytes, name.len);
    write_fared(fared_read(&kept), fared_read(&name), WELL);
    write_number(result);
    give_back(&name);
}

static void serve_call(void)
{
    uint32_t net_len = read_number(), group = read_number(), station = read_number(), list_len = read_number(), result;
    struct lent list;
    keep_net(net_len);
    list = lend(list_len);
    result = kep_call(kept.bytes, kept.len, (uint8_t)group, (uint8_t)station, list.bytes, list.len);
    write_fared(fared_read(&kept), fared_written(&list), WELL);
    write_number(result);
    write_all(list.bytes, list.len);
    give_back(&list);
}

int main(void)
{
    int letter;
    while ((letter = getchar()) != EOF) {
        switch (letter) {
        case 'F': serve_made(kep_fresh); break;
        case 'S': serve_steps(kep_step); break;
        case 'R': serve_run(kep_run); break;
        case 'N': serve_find(); break;
        case 'C': serve_call(); break;
        case 'W': serve_made(kep_to_working); break;
        case 'B': serve_made(kep_to_saved); break;
        case 's': serve_steps(kep_working_step); break;
        case 'r': serve_run(kep_working_run); break;
        default: fail("a request opens with an unknown letter");
        }
        if (fflush(stdout) != 0)
            fail("the answer cannot be written");
    }
    return 0;
}
