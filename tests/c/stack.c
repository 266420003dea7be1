/* stack FILE: how much stack each of the eight calls takes at most, over the pairs of a file (pairs.h).

   Every call is made in a thread of its own whose stack was painted beforehand. What is counted reaches from the frame that makes
   the call down to the lowest byte that is no longer paint. A byte that happens to be written in the colour of the paint is not
   seen, so each call is made with two colours.

   Prints the largest figures with what the header allows, and for comparison what a thread takes that makes no call. Ends with 1
   where a call takes more than it is allowed, with 2 where nothing could be measured. */
#define _GNU_SOURCE
#include "pairs.h"

#include <pthread.h>
#include <string.h>
#include <sys/mman.h>

enum { STACK_BYTES = 256 * 1024 };

/* The stack of the threads, and where the frame is that makes the call. */
static uint8_t *stack;
static uint8_t *frame;

static struct pair pair, quiet;
static uint64_t work[HANDOVER_WORK_WORDS];
static uint8_t out[HANDOVER_MOST_BYTES];
static uint8_t other_out[HANDOVER_MOST_BYTES];
static uint32_t record[HANDOVER_RECORD_NUMBERS];
static uint64_t answer;

static void *call_check(void *unused)
{
    frame = (uint8_t *)__builtin_frame_address(0);
    answer = handover_check(pair.handler, pair.handler_len, pair.proof, pair.proof_len, work, HANDOVER_WORK_WORDS);
    return unused;
}

static void *call_root(void *unused)
{
    frame = (uint8_t *)__builtin_frame_address(0);
    answer = handover_root(pair.handler, pair.handler_len, pair.proof, pair.proof_len);
    return unused;
}

static void *call_states(void *unused)
{
    frame = (uint8_t *)__builtin_frame_address(0);
    answer = handover_states(pair.handler, pair.handler_len, pair.proof, pair.proof_len, work, HANDOVER_WORK_WORDS);
    return unused;
}

/* A node past the last one, so that all nodes are read. */
static void *call_view(void *unused)
{
    frame = (uint8_t *)__builtin_frame_address(0);
    answer = handover_view(pair.handler, pair.handler_len, pair.proof, pair.proof_len, HANDOVER_FAULT_RULE, HANDOVER_NODE, 127);
    return unused;
}

/* The root, so that the search ends at once. */
static void *call_view_root(void *unused)
{
    frame = (uint8_t *)__builtin_frame_address(0);
    answer = handover_view(pair.handler, pair.handler_len, pair.proof, pair.proof_len, HANDOVER_FAULT_RULE, HANDOVER_NODE, 0);
    return unused;
}

static void *call_canonical(void *unused)
{
    frame = (uint8_t *)__builtin_frame_address(0);
    answer = handover_canonical(pair.handler, pair.handler_len, pair.proof, pair.proof_len, out, sizeof out);
    return unused;
}

/* The pair with one that allows it, so that most accepted pairs are composed. */
static void *call_compose(void *unused)
{
    frame = (uint8_t *)__builtin_frame_address(0);
    answer = handover_compose(pair.handler, pair.handler_len, pair.proof, pair.proof_len, quiet.handler, quiet.handler_len,
                              quiet.proof, quiet.proof_len, work, HANDOVER_WORK_WORDS, out, sizeof out, other_out, sizeof other_out);
    return unused;
}

/* The longest frame with a slot of one tick for each of the first so many places. */
static void crowd(uint32_t guests)
{
    handover_bare(record, HANDOVER_MOST_FRAME);
    record[1] = guests;
    for (uint32_t i = 0; i < guests; i++) {
        const uint32_t slot[3] = {i, i, 1};
        memcpy(record + 2 + 3 * i, slot, sizeof slot);
    }
}

/* The last place of a crowded frame. */
static void *call_admit(void *unused)
{
    frame = (uint8_t *)__builtin_frame_address(0);
    answer = handover_admit(record, HANDOVER_RECORD_NUMBERS, HANDOVER_PLACES - 1, pair.handler, pair.handler_len, pair.proof,
                            pair.proof_len, 1, work, HANDOVER_WORK_WORDS);
    return unused;
}

/* The first of all places. */
static void *call_release(void *unused)
{
    frame = (uint8_t *)__builtin_frame_address(0);
    answer = handover_release(record, HANDOVER_RECORD_NUMBERS, 0);
    return unused;
}

/* The same, with no call. */
static void *call_nothing(void *unused)
{
    frame = (uint8_t *)__builtin_frame_address(0);
    return unused;
}

/* The bytes between the frame that calls and the lowest one that is no longer paint. */
static size_t stack_of(void *(*call)(void *), int paint)
{
    pthread_attr_t attributes;
    pthread_t thread;
    memset(stack, paint, STACK_BYTES);
    crowd(call == call_release ? HANDOVER_PLACES : HANDOVER_PLACES - 1);
    if (pthread_attr_init(&attributes) != 0 || pthread_attr_setstack(&attributes, stack, STACK_BYTES) != 0) {
        give_up("the thread's stack cannot be set");
    }
    if (pthread_create(&thread, &attributes, call, NULL) != 0 || pthread_join(thread, NULL) != 0) {
        give_up("no thread");
    }
    pthread_attr_destroy(&attributes);
    uint8_t *lowest = stack;
    while (*lowest == (uint8_t)paint) {
        lowest++;
    }
    if (lowest == stack) {
        give_up("the whole stack was used");
    }
    return lowest < frame ? (size_t)(frame - lowest) : 0;
}

/* The larger of the figures of two colours. */
static size_t most_of(void *(*call)(void *))
{
    size_t one = stack_of(call, 0xA5);
    size_t other = stack_of(call, 0x3C);
    return one > other ? one : other;
}

/* The calls, what the header allows each, and its largest figure so far. */
struct measured {
    const char *name;
    void *(*call)(void *);
    size_t allowed;
    size_t most;
};

static struct measured calls[] = {
    {"handover_check", call_check, HANDOVER_STACK_BYTES, 0},
    {"handover_root", call_root, HANDOVER_STACK_BYTES, 0},
    {"handover_states", call_states, HANDOVER_STACK_BYTES, 0},
    {"handover_view", call_view, HANDOVER_STACK_BYTES, 0},
    {"handover_view of the root", call_view_root, HANDOVER_STACK_BYTES, 0},
    {"handover_canonical", call_canonical, HANDOVER_STACK_BYTES, 0},
    {"handover_compose", call_compose, HANDOVER_COMPOSE_STACK_BYTES, 0},
    {"handover_admit", call_admit, HANDOVER_STACK_BYTES, 0},
    {"handover_release", call_release, HANDOVER_STACK_BYTES, 0},
};

enum { CALLS = sizeof calls / sizeof calls[0] };

/* How many pairs there are, how many of them are accepted, for how many states are named, how many are composed and how many are
   admitted. */
struct counts {
    size_t pairs;
    size_t accepted;
    size_t with_states;
    size_t composed;
    size_t admitted;
};

static void measure(const char *name, struct counts *counts)
{
    FILE *file = fopen(name, "rb");
    if (file == NULL) {
        give_up("the file of pairs cannot be opened");
    }
    for (; next_pair(file, &pair); counts->pairs++) {
        make_quiet(&pair, &quiet);
        for (int i = 0; i < CALLS; i++) {
            size_t bytes = most_of(calls[i].call);
            calls[i].most = bytes > calls[i].most ? bytes : calls[i].most;
            counts->accepted += calls[i].call == call_check && handover_accepted(answer);
            counts->with_states += calls[i].call == call_states && answer != 0;
            counts->composed += calls[i].call == call_compose && handover_composed(answer);
            counts->admitted += calls[i].call == call_admit && handover_admitted(answer);
            if (calls[i].call == call_release && !handover_admitted(answer)) {
                give_up("a guest is not released");
            }
        }
    }
    fclose(file);
}

int main(int argc, char **argv)
{
    struct counts counts = {0, 0, 0, 0, 0};
    bool enough = true;
    if (argc != 2) {
        give_up("usage: stack FILE");
    }
    void *memory = mmap(NULL, STACK_BYTES, PROT_READ | PROT_WRITE, MAP_PRIVATE | MAP_ANONYMOUS, -1, 0);
    if (memory == MAP_FAILED) {
        give_up("no memory");
    }
    stack = (uint8_t *)memory;
    measure(argv[1], &counts);
    size_t nothing = most_of(call_nothing);
    if (counts.accepted == 0 || counts.accepted == counts.pairs || counts.with_states == 0 || counts.composed == 0
        || counts.admitted == 0) {
        give_up("the pairs are too few to measure anything");
    }
    printf("stack: %zu pairs, %zu accepted, %zu with states, %zu composed, %zu admitted:", counts.pairs, counts.accepted,
           counts.with_states, counts.composed, counts.admitted);
    for (int i = 0; i < CALLS; i++) {
        if (calls[i].most <= nothing) {
            give_up("a call takes no stack");
        }
        printf(" %s %zu of %zu bytes,", calls[i].name, calls[i].most, calls[i].allowed);
        enough = enough && calls[i].most <= calls[i].allowed;
    }
    printf(" a thread alone %zu\n", nothing);
    return enough ? 0 : 1;
}
