/* The header's constants and inline functions, on answers put together by hand and on calls at the limits. Compiled as C11 and as
   C++17 by .ci/c. Prints what is wrong and ends with 1, or prints nothing and ends with 0. */
#include "handover.h"

#include <stdio.h>
#include <string.h>

static int failures;

/* Compares two numbers and names the case where they differ. */
static void same(const char *name, uint64_t found, uint64_t wanted)
{
    if (found != wanted) {
        printf("header.c: %s is %llu, not %llu\n", name, (unsigned long long)found, (unsigned long long)wanted);
        failures++;
    }
}

/* The smallest accepted pair: one variable c of size 2, c := 1. Its root has P 0, R 0, G 1, Q 2. */
static const uint8_t handler[] = {0x22, 0x20, 0x02};
static const uint8_t proof[] = {0x08, 0xF0, 0x45, 0x20, 0x02, 0x40};

/* The same with the empty relation 0 as G, which condition 43 refuses. */
static const uint8_t refused[] = {0x08, 0xF0, 0x45, 0x20, 0x00, 0x40};

/* One variable of size 2, `while true do nil`, with every table empty but W. Node 0 begins at bit 20, node 1 at bit 47. */
static const uint8_t loop[] = {0x22, 0xAC, 0x00};
static const uint8_t order[] = {0x08, 0x80, 0x2A, 0x00, 0x00, 0x02, 0x00, 0x00, 0x00};   /* W {(1,0)} */
static const uint8_t self[] = {0x08, 0x80, 0x1A, 0x00, 0x00, 0x02, 0x00, 0x00, 0x00};    /* W {(1,1)} */
static const uint8_t toggle[] = {0x08, 0x80, 0x6A, 0x00, 0x00, 0x02, 0x00, 0x00, 0x00};  /* W {(0,1), (1,0)} */

/* `proof` under a weaken node, with other table numbers, a set that no node names and G twice; and in its one form. */
static const uint8_t shuffled[] = {0x11, 0x0D, 0x50, 0x13, 0x09, 0x08, 0x11, 0x23, 0x00};
static const uint8_t formed[] = {0x08, 0xF0, 0x45, 0xC0, 0x02, 0x44, 0x00, 0x48};

/* The one form of `refused`, in which no node names relation 1. */
static const uint8_t refused_formed[] = {0x08, 0xB0, 0x52, 0x00, 0x02};

/* `nil` over the same variable, with all states in P, R {(0,1)}, an empty G, and Q {(0,0), (0,1), (1,1)}: the smallest pair and this one
   allow each other. The files of their composition. */
static const uint8_t quiet[] = {0x22, 0x00};
static const uint8_t quiet_proof[] = {0x08, 0xF4, 0x0D, 0x00, 0x02, 0x40};
static const uint8_t composed[] = {0x22, 0x64, 0x00, 0x40};
static const uint8_t composed_proof[] = {0x09, 0x30, 0x45, 0xD6, 0x00, 0x25, 0x80, 0x04, 0x88, 0x00, 0x96, 0x01, 0x03, 0x00, 0x20, 0x60};

/* `nil` over a variable of size 3, with every table empty. */
static const uint8_t wider[] = {0x23, 0x00};
static const uint8_t wider_proof[] = {0x08, 0x40, 0x00, 0x00, 0x00, 0x00};

static uint64_t work[HANDOVER_WORK_WORDS];
static uint64_t other_work[HANDOVER_WORK_WORDS];
static uint8_t longest[HANDOVER_MOST_BYTES + 1];
static uint8_t out[HANDOVER_MOST_BYTES];
static uint8_t other_out[HANDOVER_MOST_BYTES];
static uint8_t untouched[HANDOVER_MOST_BYTES];
static uint64_t untouched_work[HANDOVER_WORK_WORDS];
static uint32_t record[HANDOVER_RECORD_NUMBERS + 10];
static const uint64_t cleared_work[HANDOVER_WORK_WORDS] = {0};

/* Every fault number, in the order of the header. */
static const enum handover_fault faults[] = {
    HANDOVER_FAULT_NONE, HANDOVER_FAULT_WORK_WORDS, HANDOVER_FAULT_FILE_LENGTH, HANDOVER_FAULT_OUTPUT_SHORT,
    HANDOVER_FAULT_HANDLER_SHORT, HANDOVER_FAULT_VARIABLE_COUNT, HANDOVER_FAULT_SIZE, HANDOVER_FAULT_STATES,
    HANDOVER_FAULT_HANDLER_CODE, HANDOVER_FAULT_VARIABLE, HANDOVER_FAULT_KINDS, HANDOVER_FAULT_HANDLER_LIMIT,
    HANDOVER_FAULT_HANDLER_FILL, HANDOVER_FAULT_PROOF_SHORT, HANDOVER_FAULT_TABLE_COUNT, HANDOVER_FAULT_RULE_CODE,
    HANDOVER_FAULT_TABLE, HANDOVER_FAULT_PROOF_LIMIT, HANDOVER_FAULT_PROOF_FILL, HANDOVER_FAULT_RULE, HANDOVER_FAULT_P_UNSTABLE,
    HANDOVER_FAULT_Q_BEFORE, HANDOVER_FAULT_Q_AFTER, HANDOVER_FAULT_CHILD_P, HANDOVER_FAULT_SKIP_Q, HANDOVER_FAULT_CHILD_R,
    HANDOVER_FAULT_CHILD_G, HANDOVER_FAULT_CHILD_Q, HANDOVER_FAULT_ASSIGNMENT_MOVED,
    HANDOVER_FAULT_ASSIGNMENT_Q, HANDOVER_FAULT_ASSIGNMENT_G, HANDOVER_FAULT_IF_MOVED, HANDOVER_FAULT_IF_Q,
    HANDOVER_FAULT_WHILE_MOVED, HANDOVER_FAULT_WHILE_W_SELF, HANDOVER_FAULT_WHILE_K, HANDOVER_FAULT_WHILE_K_UNSTABLE,
    HANDOVER_FAULT_WHILE_TEST, HANDOVER_FAULT_WHILE_RELY, HANDOVER_FAULT_WHILE_Q, HANDOVER_FAULT_WHILE_W_GAP,
    HANDOVER_FAULT_SEQUENCE_P, HANDOVER_FAULT_SEQUENCE_Q, HANDOVER_FAULT_PARALLEL_G, HANDOVER_FAULT_PARALLEL_Q,
    HANDOVER_FAULT_WEAKEN_P, HANDOVER_FAULT_WEAKEN_R, HANDOVER_FAULT_WEAKEN_G, HANDOVER_FAULT_WEAKEN_Q, HANDOVER_FAULT_STEPS,
};

/* The numbers rise, and each comes back out of an answer that has it, with either kind of place. */
static void fault_numbers(void)
{
    size_t count = sizeof faults / sizeof faults[0];
    for (size_t i = 1; i < count; i++) {
        uint64_t number = (uint64_t)faults[i];
        uint64_t at_bit = number << 33 | UINT64_C(131072);
        uint64_t at_node = at_bit | UINT64_C(1) << 32;
        same("a later number is larger", faults[i] > faults[i - 1], 1);
        same("refused", handover_accepted(at_bit) || handover_accepted(at_node), 0);
        same("number of a bit", handover_number(at_bit), number);
        same("number of a node", handover_number(at_node), number);
        same("kind bit", (uint64_t)handover_kind(at_bit), HANDOVER_BIT);
        same("kind node", (uint64_t)handover_kind(at_node), HANDOVER_NODE);
        same("place bit", handover_place(at_bit), 131072);
        same("place node", handover_place(at_node), 131072);
    }
    same("the last number", (uint64_t)faults[count - 1], 80);
}

/* Step numbers at their limit. */
static void step_numbers(void)
{
    uint64_t most = HANDOVER_MOST_STEPS;
    same("accepted 0", handover_accepted(0), 1);
    same("accepted at the limit", handover_accepted(most), 1);
    same("accepted over the limit", handover_accepted(most + 1), 0);
    same("steps at the limit", handover_steps(most), most);
    same("number of an accepted pair", handover_number(most), HANDOVER_FAULT_NONE);
}

/* A root's numbers at their limits, each in its place. */
static void roots(void)
{
    uint64_t root = UINT64_C(0x0403020140);
    same("N", handover_root_states(root), HANDOVER_MOST_STATES);
    same("P", handover_root_precondition(root), 1);
    same("R", handover_root_rely(root), 2);
    same("G", handover_root_guarantee(root), 3);
    same("Q", handover_root_postcondition(root), 4);
    same("root", handover_root(handler, sizeof handler, proof, sizeof proof), 2 + (UINT64_C(1) << 24) + (UINT64_C(2) << 32));
    same("root of a refused pair", handover_root(handler, sizeof handler, refused, sizeof refused), 2 + (UINT64_C(2) << 32));
    same("root of no handler", handover_root(handler, 0, proof, sizeof proof), 0);
    same("root of too long a file", handover_root(longest, sizeof longest, proof, sizeof proof), 0);
}

/* Where the tables are: the last row is the last word, and the smallest pair's G is {(0,1)}. */
static void tables(void)
{
    size_t last = handover_row_word(HANDOVER_MOST_RELATIONS - 1, HANDOVER_MOST_STATES - 1);
    same("the last word", last, HANDOVER_WORK_WORDS - 1);
    same("the last set", handover_set_word(HANDOVER_MOST_SETS - 1) + 1, handover_row_word(0, 0));
    memset(work, 0xFF, sizeof work);
    same("check", handover_check(handler, sizeof handler, proof, sizeof proof, work, HANDOVER_WORK_WORDS), 1);
    same("1 in P", handover_in_set(work, 0, 1), 1);
    same("2 in P", handover_in_set(work, 0, 2), 0);
    same("(0,1) in G", handover_in_relation(work, 1, 0, 1), 1);
    same("(1,0) in G", handover_in_relation(work, 1, 1, 0), 0);
    same("(1,1) in G", handover_in_relation(work, 1, 1, 1), 0);
}

/* The host's own faults, at their limits, and one fault of the proof. */
static void calls(void)
{
    uint64_t answer = handover_check(handler, sizeof handler, proof, sizeof proof, work, HANDOVER_WORK_WORDS - 1);
    same("a word short", handover_number(answer), HANDOVER_FAULT_WORK_WORDS);
    answer = handover_check(longest, sizeof longest, proof, sizeof proof, work, HANDOVER_WORK_WORDS);
    same("a byte over", handover_number(answer), HANDOVER_FAULT_FILE_LENGTH);
    answer = handover_check(longest, sizeof longest - 1, proof, sizeof proof, work, HANDOVER_WORK_WORDS);
    same("the longest file", handover_number(answer), HANDOVER_FAULT_VARIABLE_COUNT);
    answer = handover_check(handler, sizeof handler, refused, sizeof refused, work, HANDOVER_WORK_WORDS);
    same("an empty G", handover_number(answer), HANDOVER_FAULT_ASSIGNMENT_G);
    same("at a node", (uint64_t)handover_kind(answer), HANDOVER_NODE);
    same("node 0", handover_place(answer), 0);
}

/* The states of a call with so many work words; the words end as after the check. */
static uint64_t states_of(const uint8_t *handler_file, const uint8_t *proof_file, size_t proof_len, size_t words)
{
    memset(work, 0xFF, sizeof work);
    memset(other_work, 0xFF, sizeof other_work);
    handover_check(handler_file, sizeof handler, proof_file, proof_len, other_work, words);
    uint64_t found = handover_states(handler_file, sizeof handler, proof_file, proof_len, work, words);
    same("words after the states", memcmp(work, other_work, sizeof work) == 0, 1);
    return found;
}

/* States put together by hand at their limits, and those of refused pairs and of an accepted one. */
static void states(void)
{
    uint64_t three = UINT64_C(3) << 24 | 63 | 1 << 8 | 62 << 16;
    same("count of none", handover_states_count(0), 0);
    same("none of none", handover_states_at(0, 0), HANDOVER_MOST_STATES);
    same("count of three", handover_states_count(three), 3);
    same("first of three", handover_states_at(three, 0), 63);
    same("second of three", handover_states_at(three, 1), 1);
    same("third of three", handover_states_at(three, 2), 62);
    same("fourth of three", handover_states_at(three, 3), HANDOVER_MOST_STATES);
    same("state far past the count", handover_states_at(three, UINT32_MAX), HANDOVER_MOST_STATES);
    same("states of 43", states_of(handler, refused, sizeof refused, HANDOVER_WORK_WORDS), UINT64_C(2) << 24 | 1 << 8);
    same("states of 51", states_of(loop, self, sizeof self, HANDOVER_WORK_WORDS), UINT64_C(1) << 24 | 1);
    same("states of 57", states_of(loop, toggle, sizeof toggle, HANDOVER_WORK_WORDS), UINT64_C(3) << 24 | 1 << 8);
    same("states of 30", states_of(handler, order, sizeof order, HANDOVER_WORK_WORDS), 0);
    same("states of 20", states_of(handler, proof, 0, HANDOVER_WORK_WORDS), 0);
    same("states of 1", states_of(handler, refused, sizeof refused, HANDOVER_WORK_WORDS - 1), 0);
    same("states of 2", states_of(handler, longest, sizeof longest, HANDOVER_WORK_WORDS), 0);
    same("states of an accepted pair", states_of(handler, proof, sizeof proof, HANDOVER_WORK_WORDS), 0);
    same("states of an accepted loop", states_of(loop, order, sizeof order, HANDOVER_WORK_WORDS), 0);
}

/* The view of `loop` and `order`, both well-formed, in one number. */
static uint64_t loop_view(uint32_t number, uint32_t kind, uint64_t place)
{
    return handover_view(loop, sizeof loop, order, sizeof order, number, kind, place);
}

/* Whether a check can give the number, by the list above. */
static bool known(uint32_t number)
{
    for (size_t i = 1; i < sizeof faults / sizeof faults[0]; i++) {
        if ((uint32_t)faults[i] == number) {
            return true;
        }
    }
    return false;
}

/* The file and the first byte for every number and kind: at place 9, a bit of byte 1, and no node; and at place 1. */
static void views_of_numbers(void)
{
    const uint64_t in_proof = UINT64_C(1) << 32;
    for (uint32_t number = 0; number < 200; number++) {
        bool of_handler = known(number) && number >= 10 && number < 20;
        bool of_proof = known(number) && number >= 20 && number < 30;
        bool of_node = known(number) && number >= 30;
        same("bit 9", loop_view(number, HANDOVER_BIT, 9), of_handler ? 1 : of_proof ? in_proof + 1 : sizeof loop);
        same("node 9", loop_view(number, HANDOVER_NODE, 9), of_node ? in_proof + sizeof order : sizeof loop);
        same("node 1", loop_view(number, HANDOVER_NODE, 1), of_node ? in_proof + 5 : sizeof loop);
        same("kind 2", loop_view(number, 2, 1), sizeof loop);
        same("the largest kind", loop_view(number, UINT32_MAX, 1), sizeof loop);
    }
    same("the largest number", loop_view(UINT32_MAX, HANDOVER_BIT, 0), sizeof loop);
    same("a number over 2^31", loop_view(UINT32_C(0x80000000) + 10, HANDOVER_BIT, 0), sizeof loop);
}

/* Places at their limits, in files that are well-formed, ill-formed and too long. */
static void views_of_places(void)
{
    const uint64_t in_proof = UINT64_C(1) << 32;
    same("node 0", loop_view(57, HANDOVER_NODE, 0), in_proof + 2);
    same("node 2", loop_view(57, HANDOVER_NODE, 2), in_proof + sizeof order);
    same("node 2^32", loop_view(57, HANDOVER_NODE, UINT64_C(1) << 32), in_proof + sizeof order);
    same("node 2^32 + 1", loop_view(57, HANDOVER_NODE, (UINT64_C(1) << 32) + 1), in_proof + sizeof order);
    same("the last bit", loop_view(18, HANDOVER_BIT, 8 * sizeof loop - 1), sizeof loop - 1);
    same("the bit after it", loop_view(10, HANDOVER_BIT, 8 * sizeof loop), sizeof loop);
    same("the last bit of the proof", loop_view(25, HANDOVER_BIT, 8 * sizeof order - 1), in_proof + sizeof order - 1);
    same("the bit after that", loop_view(20, HANDOVER_BIT, 8 * sizeof order), in_proof + sizeof order);
    same("bit 2^35", loop_view(18, HANDOVER_BIT, UINT64_C(1) << 35), sizeof loop);
    same("bit 2^64 - 1", loop_view(25, HANDOVER_BIT, UINT64_MAX), in_proof + sizeof order);
    same("node, no handler", handover_view(loop, 0, order, sizeof order, 30, HANDOVER_NODE, 0), in_proof + sizeof order);
    same("node, no proof", handover_view(loop, sizeof loop, order, 0, 30, HANDOVER_NODE, 0), in_proof);
    same("bit, no files", handover_view(loop, 0, order, 0, 10, HANDOVER_BIT, 0), 0);
    same("node, too long a handler", handover_view(longest, sizeof longest, order, sizeof order, 30, HANDOVER_NODE, 0),
         in_proof + sizeof order);
    same("node, too long a proof", handover_view(loop, sizeof loop, longest, sizeof longest, 30, HANDOVER_NODE, 0),
         in_proof + sizeof longest);
    same("bit, too long a handler", handover_view(longest, sizeof longest, order, 0, 18, HANDOVER_BIT, 8 * HANDOVER_MOST_BYTES),
         HANDOVER_MOST_BYTES);
    same("bit, one file twice", handover_view(order, sizeof order, order, sizeof order, 25, HANDOVER_BIT, 17), in_proof + 2);
}

/* Views put together by hand, and taken apart. */
static void views_apart(void)
{
    const uint64_t in_proof = UINT64_C(1) << 32;
    same("the handler file", (uint64_t)handover_view_file(UINT32_MAX), HANDOVER_HANDLER_FILE);
    same("the proof file", (uint64_t)handover_view_file(in_proof), HANDOVER_PROOF_FILE);
    same("the proof file at its end", (uint64_t)handover_view_file(in_proof + UINT32_MAX), HANDOVER_PROOF_FILE);
    same("index 0", handover_view_index(in_proof), 0);
    same("the largest index", handover_view_index(UINT32_MAX), UINT32_MAX);
    same("the same in the proof", handover_view_index(in_proof + UINT32_MAX), UINT32_MAX);
}

/* The form of a proof file, in so much room: it is written there in full, and the bytes past it are left. */
static void written(const char *name, const uint8_t *read, size_t read_len, const uint8_t *form, size_t form_len, size_t room)
{
    memset(out, 0x77, sizeof out);
    uint64_t answer = handover_canonical(handler, sizeof handler, read, read_len, out, room);
    same(name, answer, form_len);
    same("written", handover_written(answer), 1);
    same("its length", handover_length(answer), form_len);
    same("no number", handover_number(answer), HANDOVER_FAULT_NONE);
    same("the form", memcmp(out, form, form_len) == 0, 1);
    same("the bytes past it", memcmp(out + form_len, untouched + form_len, sizeof out - form_len) == 0, 1);
}

/* Forms over the smallest handler, in a buffer that is just long enough and in the longest. */
static void forms(void)
{
    const size_t most = sizeof out;
    written("the smallest proof", proof, sizeof proof, proof, sizeof proof, sizeof proof);
    written("it in the longest buffer", proof, sizeof proof, proof, sizeof proof, most);
    written("other numbers", shuffled, sizeof shuffled, formed, sizeof formed, sizeof formed);
    written("a form again", formed, sizeof formed, formed, sizeof formed, most);
    written("a refused pair", refused, sizeof refused, refused_formed, sizeof refused_formed, most);
    same("the largest length is one", handover_written(UINT32_MAX), 1);
    same("a fault is none", handover_written((uint64_t)UINT32_MAX + 1), 0);
}

/* A call that writes nothing: its number and bit, with the buffer as it was. */
static void turned_away(const char *name, const uint8_t *first, size_t first_len, const uint8_t *second, size_t second_len,
                        size_t room, enum handover_fault number, uint32_t bit)
{
    memset(out, 0x77, sizeof out);
    uint64_t answer = handover_canonical(first, first_len, second, second_len, out, room);
    same(name, handover_number(answer), (uint64_t)number);
    same("not written", handover_written(answer), 0);
    same("at a bit", (uint64_t)handover_kind(answer), HANDOVER_BIT);
    same("the bit", handover_place(answer), bit);
    same("the whole buffer", memcmp(out, untouched, sizeof out) == 0, 1);
}

/* Each fault comes before those after it, at the limits; the buffer is the last. */
static void forms_turned_away(void)
{
    const size_t most = sizeof out, h = sizeof handler, p = sizeof proof;
    turned_away("too long a handler", longest, sizeof longest, proof, p, 0, HANDOVER_FAULT_FILE_LENGTH, 0);
    turned_away("too long a proof", handler, 0, longest, sizeof longest, 0, HANDOVER_FAULT_FILE_LENGTH, 0);
    turned_away("the longest handler", longest, sizeof longest - 1, proof, 0, 0, HANDOVER_FAULT_VARIABLE_COUNT, 0);
    turned_away("no handler", handler, 0, proof, 0, 0, HANDOVER_FAULT_HANDLER_SHORT, 0);
    turned_away("no proof", handler, h, proof, 0, 0, HANDOVER_FAULT_PROOF_SHORT, 0);
    turned_away("the longest proof", handler, h, longest, sizeof longest - 1, most, HANDOVER_FAULT_TABLE_COUNT, 0);
    turned_away("a byte less than the proof", handler, h, proof, p - 1, 0, HANDOVER_FAULT_PROOF_SHORT, 40);
    turned_away("no buffer", handler, h, proof, p, 0, HANDOVER_FAULT_OUTPUT_SHORT, 0);
    turned_away("a byte short", handler, h, proof, p, p - 1, HANDOVER_FAULT_OUTPUT_SHORT, 0);
    turned_away("a byte short of its form", handler, h, shuffled, sizeof shuffled, sizeof formed - 1, HANDOVER_FAULT_OUTPUT_SHORT,
                0);
}

/* Answers of a composition put together by hand at their limits, and taken apart. */
static void compositions_apart(void)
{
    const uint64_t most = HANDOVER_MOST_BYTES;
    const uint64_t answer = HANDOVER_MOST_STEPS + (most << 32) + (most << 47);
    same("composed", handover_composed(answer), 1);
    same("steps", handover_composed_steps(answer), HANDOVER_MOST_STEPS);
    same("handler length", handover_composed_handler(answer), most);
    same("proof length", handover_composed_proof(answer), most);
    same("no pair", handover_composed_pair(answer), 0);
    same("no fault", handover_composed_fault(answer), 0);
    for (uint64_t pair = 0; pair < 3; pair++) {
        uint64_t fault = UINT64_C(95) << 33 | UINT64_C(1) << 32 | UINT32_MAX;
        uint64_t refusal = UINT64_C(1) << 63 | pair << 48 | fault;
        same("not composed", handover_composed(refusal), 0);
        same("pair", handover_composed_pair(refusal), pair);
        same("fault", handover_composed_fault(refusal), fault);
        same("its number", handover_number(handover_composed_fault(refusal)), HANDOVER_COMPOSE_OUTPUT);
    }
}

/* Two files of a pair. */
struct files {
    const uint8_t *handler;
    size_t handler_len;
    const uint8_t *proof;
    size_t proof_len;
};

static const struct files smallest = {handler, sizeof handler, proof, sizeof proof};
static const struct files beside = {quiet, sizeof quiet, quiet_proof, sizeof quiet_proof};
static const struct files wide = {wider, sizeof wider, wider_proof, sizeof wider_proof};
static const struct files broken = {handler, sizeof handler, refused, sizeof refused};
static const struct files long_proof = {handler, sizeof handler, longest, sizeof longest};
static const struct files no_handler = {handler, 0, proof, sizeof proof};

/* Composes two pairs with so many words and bytes. */
static uint64_t compose(const struct files *a, const struct files *b, size_t words, size_t hroom, size_t proom)
{
    memset(out, 0x77, sizeof out);
    memset(other_out, 0x77, sizeof other_out);
    memset(work, 0x77, sizeof work);
    return handover_compose(a->handler, a->handler_len, a->proof, a->proof_len, b->handler, b->handler_len, b->proof, b->proof_len,
                            work, words, out, hroom, other_out, proom);
}

/* The composition in so much room: both files are there in full, and the bytes past them are left. */
static void composes(const char *name, size_t hroom, size_t proom)
{
    const size_t h = sizeof composed, p = sizeof composed_proof;
    uint64_t answer = compose(&smallest, &beside, HANDOVER_WORK_WORDS, hroom, proom);
    same(name, answer, 2 + ((uint64_t)h << 32) + ((uint64_t)p << 47));
    same("the handler", memcmp(out, composed, h) == 0, 1);
    same("the bytes past it", memcmp(out + h, untouched + h, sizeof out - h) == 0, 1);
    same("the proof", memcmp(other_out, composed_proof, p) == 0, 1);
    same("the bytes past that", memcmp(other_out + p, untouched + p, sizeof other_out - p) == 0, 1);
    same("the words", memcmp(work, cleared_work, sizeof work) == 0, 1);
    same("accepted", handover_check(out, h, other_out, p, work, HANDOVER_WORK_WORDS), handover_composed_steps(answer));
}

/* A call that writes nothing: its pair and number, with both buffers as they were; 1 and 2 leave the words too. */
static void not_composed(const char *name, const struct files *a, const struct files *b, size_t words, size_t hroom, size_t proom,
                         uint32_t pair, uint32_t number)
{
    uint64_t answer = compose(a, b, words, hroom, proom);
    uint64_t fault = handover_composed_fault(answer);
    const uint64_t *wanted = number <= HANDOVER_FAULT_FILE_LENGTH ? untouched_work : cleared_work;
    same(name, handover_number(fault), number);
    same("not composed", handover_composed(answer), 0);
    same("its pair", handover_composed_pair(answer), pair);
    same("its kind", (uint64_t)handover_kind(fault), number >= 30 && number <= 80 ? HANDOVER_NODE : HANDOVER_BIT);
    same("its place", handover_place(fault), 0);
    same("the handler's buffer", memcmp(out, untouched, sizeof out) == 0, 1);
    same("the proof's buffer", memcmp(other_out, untouched, sizeof other_out) == 0, 1);
    same("the words", memcmp(work, wanted, sizeof work) == 0, 1);
}

/* Compositions in buffers that are just long enough and in the longest; and each fault before those after it. */
static void compositions(void)
{
    const size_t words = HANDOVER_WORK_WORDS, h = sizeof composed, p = sizeof composed_proof, most = sizeof out;
    composes("composed in just enough room", h, p);
    composes("composed in the longest buffers", most, most);
    not_composed("a word short", &long_proof, &long_proof, words - 1, 0, 0, 0, HANDOVER_FAULT_WORK_WORDS);
    not_composed("too long a first file", &long_proof, &long_proof, words, 0, 0, 1, HANDOVER_FAULT_FILE_LENGTH);
    not_composed("too long a second file", &broken, &long_proof, words, 0, 0, 2, HANDOVER_FAULT_FILE_LENGTH);
    not_composed("no first handler", &no_handler, &broken, words, 0, 0, 1, HANDOVER_FAULT_HANDLER_SHORT);
    not_composed("the first pair's own", &broken, &no_handler, words, 0, 0, 1, HANDOVER_FAULT_ASSIGNMENT_G);
    not_composed("the second pair's own", &wide, &broken, words, 0, 0, 2, HANDOVER_FAULT_ASSIGNMENT_G);
    not_composed("other sizes", &smallest, &wide, words, 0, 0, 0, HANDOVER_COMPOSE_SIZES);
    not_composed("the second G", &smallest, &smallest, words, 0, 0, 0, HANDOVER_COMPOSE_SECOND_G);
    not_composed("a byte short for the handler", &smallest, &beside, words, h - 1, p, 0, HANDOVER_COMPOSE_OUTPUT);
    not_composed("a byte short for the proof", &smallest, &beside, words, h, p - 1, 0, HANDOVER_COMPOSE_OUTPUT);
}

/* The limits of frames and the numbers of their faults, each out of an answer that has it. */
static void frames(void)
{
    static const enum handover_admit_fault numbers[] = {HANDOVER_ADMIT_PLACE, HANDOVER_ADMIT_TAKEN, HANDOVER_ADMIT_RECORD,
                                                        HANDOVER_ADMIT_ROOM, HANDOVER_ADMIT_TICKS};
    same("numbers of a record", HANDOVER_RECORD_NUMBERS, 2 + 3 * HANDOVER_PLACES);
    same("places", HANDOVER_PLACES, 16);
    same("the longest frame", HANDOVER_MOST_FRAME, 1000000);
    same("the most ticks", HANDOVER_MOST_TICKS, 1000);
    same("admitted", handover_admitted(0), 1);
    same("one is none", handover_admitted(1), 0);
    for (uint32_t i = 0; i < sizeof numbers / sizeof numbers[0]; i++) {
        uint64_t answer = (uint64_t)numbers[i] << 33;
        same("the number", (uint64_t)numbers[i], 100 + i);
        same("not admitted", handover_admitted(answer), 0);
        same("number of the answer", handover_number(answer), 100 + i);
        same("its kind", (uint64_t)handover_kind(answer), HANDOVER_BIT);
        same("its place", handover_place(answer), 0);
    }
}

/* A slot of the record. */
static void slot(const char *name, uint32_t i, uint32_t place, uint32_t first, uint32_t length)
{
    same(name, handover_slots(record) > i, 1);
    same("its place", handover_slot_place(record, i), place);
    same("its first tick", handover_slot_first(record, i), first);
    same("its length", handover_slot_length(record, i), length);
}

/* The last slot is at the end of the record, and a bare record has nothing but its frame. */
static void records(void)
{
    for (uint32_t i = 0; i < HANDOVER_RECORD_NUMBERS; i++) {
        record[i] = 1000 + i;
    }
    same("count", handover_slots(record), 1001);
    slot("slot 0", 0, 1002, 1003, 1004);
    slot("slot 15", 15, 1047, 1048, 1049);
    record[HANDOVER_RECORD_NUMBERS] = 77;
    handover_bare(record, HANDOVER_MOST_FRAME);
    same("frame", record[0], HANDOVER_MOST_FRAME);
    for (uint32_t i = 1; i < HANDOVER_RECORD_NUMBERS; i++) {
        same("a number of a bare record", record[i], 0);
    }
    same("the number after it", record[HANDOVER_RECORD_NUMBERS], 77);
}

/* Admits a pair with so many words. */
static uint64_t admit(const struct files *a, size_t numbers, uint32_t place, uint32_t ticks, size_t words)
{
    memset(work, 0x77, sizeof work);
    return handover_admit(record, numbers, place, a->handler, a->handler_len, a->proof, a->proof_len, ticks, work, words);
}

/* A call that is refused: its number, with the record as it was, and the words as they were, 0 or the tables. */
static void not_admitted(const char *name, const struct files *a, size_t numbers, uint32_t place, uint32_t ticks, size_t words,
                         uint32_t number)
{
    uint32_t before[sizeof record / sizeof record[0]];
    memcpy(before, record, sizeof record);
    uint64_t answer = admit(a, numbers, place, ticks, words);
    bool reached = number != HANDOVER_ADMIT_PLACE && number != HANDOVER_ADMIT_TAKEN && number != HANDOVER_ADMIT_RECORD
        && number != HANDOVER_ADMIT_TICKS;
    memset(other_work, 0x77, sizeof other_work);
    if (reached) {
        handover_check(a->handler, a->handler_len, a->proof, a->proof_len, other_work, words);
    }
    same(name, handover_number(answer), number);
    same("not admitted", handover_admitted(answer), 0);
    same("its kind", (uint64_t)handover_kind(answer), number >= 30 && number <= 80 ? HANDOVER_NODE : HANDOVER_BIT);
    same("its place", handover_place(answer), 0);
    same("the record", memcmp(record, before, sizeof record) == 0, 1);
    same("the words", memcmp(work, other_work, sizeof work) == 0, 1);
}

/* The smallest pair makes one step, so that its need is its ticks. Guests come and go in a frame of 100 ticks. */
static void admissions(void)
{
    const size_t words = HANDOVER_WORK_WORDS, numbers = HANDOVER_RECORD_NUMBERS;
    handover_bare(record, 100);
    memset(record + 2, 0xFF, 48 * sizeof record[0]);
    same("the first guest", admit(&smallest, numbers, 15, 10, words), 0);
    same("a guest of no steps", admit(&beside, numbers, 0, 1000, words), 0);
    same("the third guest", admit(&smallest, numbers, 7, 90, words), 0);
    same("a table in the words", handover_in_relation(work, 1, 0, 1), 1);
    same("three slots", handover_slots(record), 3);
    slot("the first", 0, 15, 0, 10);
    slot("the second", 1, 0, 10, 0);
    slot("the third", 2, 7, 10, 90);
    same("past the slots", record[11], 0);
    not_admitted("no room", &smallest, numbers, 1, 1, words, HANDOVER_ADMIT_ROOM);
    same("a release", handover_release(record, numbers, 15), 0);
    same("two slots", handover_slots(record), 2);
    slot("the former second", 0, 0, 0, 0);
    slot("the former third", 1, 7, 0, 90);
    same("past the two", record[8], 0);
    same("a second release", handover_number(handover_release(record, numbers, 15)), HANDOVER_ADMIT_TAKEN);
    not_admitted("a tick too many", &smallest, numbers, 15, 11, words, HANDOVER_ADMIT_ROOM);
    same("the last ticks", admit(&smallest, numbers, 15, 10, words), 0);
    slot("the last", 2, 15, 90, 10);
}

/* Each fault comes before those after it. */
static void admissions_turned_away(void)
{
    const size_t words = HANDOVER_WORK_WORDS, numbers = HANDOVER_RECORD_NUMBERS;
    handover_bare(record, 0);
    same("a release of no place", handover_release(record, 0, 16), UINT64_C(100) << 33);
    same("a release from no numbers", handover_release(record, 0, 15), UINT64_C(101) << 33);
    record[1] = 1;
    not_admitted("place 16", &long_proof, 0, 16, 0, words - 1, HANDOVER_ADMIT_PLACE);
    not_admitted("a place that is taken", &long_proof, numbers - 1, 0, 0, words - 1, HANDOVER_ADMIT_TAKEN);
    same("a release from too few numbers", handover_release(record, numbers - 1, 0), UINT64_C(102) << 33);
    record[0] = 1;
    not_admitted("too few numbers", &long_proof, numbers - 1, 1, 0, words - 1, HANDOVER_ADMIT_RECORD);
    not_admitted("too many numbers", &long_proof, numbers + 1, 1, 0, words - 1, HANDOVER_ADMIT_RECORD);
    not_admitted("no ticks", &long_proof, numbers, 1, 0, words - 1, HANDOVER_ADMIT_TICKS);
    not_admitted("too many ticks", &long_proof, numbers, 1, HANDOVER_MOST_TICKS + 1, words - 1, HANDOVER_ADMIT_TICKS);
    not_admitted("a word short", &long_proof, numbers, 1, HANDOVER_MOST_TICKS, words - 1, HANDOVER_FAULT_WORK_WORDS);
    not_admitted("too long a proof", &long_proof, numbers, 1, HANDOVER_MOST_TICKS, words, HANDOVER_FAULT_FILE_LENGTH);
    not_admitted("no handler", &no_handler, numbers, 1, HANDOVER_MOST_TICKS, words, HANDOVER_FAULT_HANDLER_SHORT);
    not_admitted("the pair's own", &broken, numbers, 1, HANDOVER_MOST_TICKS, words, HANDOVER_FAULT_ASSIGNMENT_G);
    not_admitted("no room", &smallest, numbers, 1, 2, words, HANDOVER_ADMIT_ROOM);
    same("room", admit(&smallest, numbers, 1, 1, words), 0);
}

int main(void)
{
    memset(untouched, 0x77, sizeof untouched);
    memset(untouched_work, 0x77, sizeof untouched_work);
    fault_numbers();
    step_numbers();
    roots();
    tables();
    calls();
    states();
    views_of_numbers();
    views_of_places();
    views_apart();
    forms();
    forms_turned_away();
    compositions_apart();
    compositions();
    frames();
    records();
    admissions();
    admissions_turned_away();
    return failures == 0 ? 0 : 1;
}
