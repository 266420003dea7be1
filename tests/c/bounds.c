/* bounds FILE: the eight calls read and write nothing outside their buffers, over the pairs of a file (pairs.h).

   The files, the work words, the output and the record are put right before a page that cannot be accessed, and then right after one,
   so that an access one byte outside ends the program by a signal. The answers, the words, the output and the record must be those of
   a call with ordinary buffers, and the files must be unchanged. The output has just as many bytes as the form, and then one fewer.
   Each pair is composed with itself and with one that allows it, into just as many bytes as both files have, and then one fewer in
   either. Each pair is admitted to a frame with 15 guests, and the first of them is released; and records have every length from 0 to
   60. Ends with 1 where something differs, with 2 where nothing was tested. */
#define _GNU_SOURCE
#include "pairs.h"

#include <string.h>
#include <sys/mman.h>

enum { PAGE = 4096, ROOM = 5 * PAGE };

/* ROOM bytes between two pages that cannot be accessed. */
static uint8_t *guarded(void)
{
    void *memory = mmap(NULL, ROOM + 2 * PAGE, PROT_NONE, MAP_PRIVATE | MAP_ANONYMOUS, -1, 0);
    if (memory == MAP_FAILED || mprotect((uint8_t *)memory + PAGE, ROOM, PROT_READ | PROT_WRITE) != 0) {
        give_up("no memory");
    }
    return (uint8_t *)memory + PAGE;
}

/* Where so many bytes begin: at the start of the room, or such that they end at its end. */
static uint8_t *placed(uint8_t *room, size_t length, bool at_end)
{
    return at_end ? room + ROOM - length : room;
}

static struct pair pair, quiet;
static uint64_t plain_work[HANDOVER_WORK_WORDS];
static uint64_t plain_states_work[HANDOVER_WORK_WORDS];
static uint8_t plain_out[HANDOVER_MOST_BYTES];
static uint8_t plain_handler[HANDOVER_MOST_BYTES];
static uint8_t plain_proof[HANDOVER_MOST_BYTES];

enum { ROOMS = 7 };

static uint8_t *rooms[ROOMS];

/* Places that are asked for with each pair, besides that of its refusal: in the files and just past them, nodes and bits. */
enum { PLACES = 7 };

/* What the calls answer. */
struct answers {
    uint64_t check;
    uint64_t root;
    uint64_t states;
    uint64_t form;
    uint64_t views[PLACES];
};

/* How many bytes the form has; 0 if there is none. */
static size_t form_length(const struct answers *known)
{
    return handover_written(known->form) ? handover_length(known->form) : 0;
}

/* Whether the form is written into as many bytes as it has, and nothing into fewer. */
static bool same_form(const uint8_t *handler, const uint8_t *proof, bool at_end, const struct answers *known)
{
    size_t length = form_length(known);
    uint8_t *out = placed(rooms[3], length, at_end);
    bool same = handover_canonical(handler, pair.handler_len, proof, pair.proof_len, out, length) == known->form
        && memcmp(out, plain_out, length) == 0;
    if (length > 0) {
        uint8_t *short_out = placed(rooms[3], length - 1, at_end);
        memset(short_out, 0x77, length - 1);
        uint64_t answer = handover_canonical(handler, pair.handler_len, proof, pair.proof_len, short_out, length - 1);
        same = same && handover_number(answer) == HANDOVER_FAULT_OUTPUT_SHORT;
        for (size_t i = 0; i < length - 1; i++) {
            same = same && short_out[i] == 0x77;
        }
    }
    return same;
}

/* The composition of two pairs in buffers that begin or end at a page, with output of so many bytes. */
static uint64_t compose_at(const struct pair *second, bool at_end, uint8_t **outs, size_t hroom, size_t proom)
{
    const uint8_t *sources[4] = {pair.handler, pair.proof, second->handler, second->proof};
    const size_t lengths[4] = {pair.handler_len, pair.proof_len, second->handler_len, second->proof_len};
    uint8_t *files[4];
    uint64_t *work = (uint64_t *)(void *)placed(rooms[4], sizeof plain_work, at_end);
    for (int i = 0; i < 4; i++) {
        files[i] = placed(rooms[i], lengths[i], at_end);
        memcpy(files[i], sources[i], lengths[i]);
    }
    outs[0] = placed(rooms[5], hroom, at_end);
    outs[1] = placed(rooms[6], proom, at_end);
    memset(work, 0x77, sizeof plain_work);
    memset(outs[0], 0x77, hroom);
    memset(outs[1], 0x77, proom);
    uint64_t answer = handover_compose(files[0], lengths[0], files[1], lengths[1], files[2], lengths[2], files[3], lengths[3], work,
                                       HANDOVER_WORK_WORDS, outs[0], hroom, outs[1], proom);
    bool same = memcmp(work, plain_work, sizeof plain_work) == 0;
    for (int i = 0; i < 4; i++) {
        same = same && memcmp(files[i], sources[i], lengths[i]) == 0;
    }
    return same ? answer : UINT64_MAX;
}

/* Whether so many bytes are as they were set. */
static bool is_left(const uint8_t *bytes, size_t length)
{
    for (size_t i = 0; i < length; i++) {
        if (bytes[i] != 0x77) {
            return false;
        }
    }
    return true;
}

/* Whether output of one byte fewer, in the handler's room or in the proof's, is refused and left. */
static bool left_short(const struct pair *second, bool at_end, size_t hroom, size_t proom)
{
    uint8_t *outs[2];
    uint64_t fault = handover_composed_fault(compose_at(second, at_end, outs, hroom, proom));
    return handover_number(fault) == HANDOVER_COMPOSE_OUTPUT && is_left(outs[0], hroom) && is_left(outs[1], proom);
}

/* Whether a composition does with guarded buffers what it does with ordinary ones; counts those that are written. */
static bool same_composition(const struct pair *second, size_t *compositions)
{
    uint8_t *outs[2];
    memset(plain_work, 0x77, sizeof plain_work);
    uint64_t known = handover_compose(pair.handler, pair.handler_len, pair.proof, pair.proof_len, second->handler,
                                      second->handler_len, second->proof, second->proof_len, plain_work, HANDOVER_WORK_WORDS,
                                      plain_handler, sizeof plain_handler, plain_proof, sizeof plain_proof);
    bool written = handover_composed(known), same = true;
    size_t h = written ? handover_composed_handler(known) : 0, p = written ? handover_composed_proof(known) : 0;
    for (int at_end = 0; at_end < 2; at_end++) {
        same = same && compose_at(second, at_end == 1, outs, h, p) == known && memcmp(outs[0], plain_handler, h) == 0
            && memcmp(outs[1], plain_proof, p) == 0;
        same = same
            && (!written || (left_short(second, at_end == 1, h - 1, p) && left_short(second, at_end == 1, h, p - 1)));
    }
    *compositions += written;
    return same;
}

/* The longest frame with a slot of one tick for each of the first 15 places. */
static void crowd(uint32_t *record)
{
    handover_bare(record, HANDOVER_MOST_FRAME);
    record[1] = HANDOVER_PLACES - 1;
    for (uint32_t i = 0; i < HANDOVER_PLACES - 1; i++) {
        const uint32_t slot[3] = {i, i, 1};
        memcpy(record + 2 + 3 * i, slot, sizeof slot);
    }
}

/* Where so many numbers of a record begin. */
static uint32_t *record_at(size_t numbers, bool at_end)
{
    return (uint32_t *)(void *)placed(rooms[3], numbers * sizeof(uint32_t), at_end);
}

/* Whether an admission and a release do with guarded buffers what they do with ordinary ones; counts the admissions. */
static bool same_admission(bool at_end, size_t *admissions)
{
    uint32_t plain[HANDOVER_RECORD_NUMBERS];
    uint32_t *record = record_at(HANDOVER_RECORD_NUMBERS, at_end);
    uint8_t *handler = placed(rooms[0], pair.handler_len, at_end);
    uint8_t *proof = placed(rooms[1], pair.proof_len, at_end);
    uint64_t *work = (uint64_t *)(void *)placed(rooms[2], sizeof plain_work, at_end);
    memcpy(handler, pair.handler, pair.handler_len);
    memcpy(proof, pair.proof, pair.proof_len);
    memset(plain_work, 0x77, sizeof plain_work);
    memset(work, 0x77, sizeof plain_work);
    crowd(plain);
    crowd(record);
    uint64_t known = handover_admit(plain, HANDOVER_RECORD_NUMBERS, HANDOVER_PLACES - 1, pair.handler, pair.handler_len, pair.proof,
                                    pair.proof_len, 1, plain_work, HANDOVER_WORK_WORDS);
    bool same = handover_admit(record, HANDOVER_RECORD_NUMBERS, HANDOVER_PLACES - 1, handler, pair.handler_len, proof, pair.proof_len,
                               1, work, HANDOVER_WORK_WORDS) == known
        && memcmp(record, plain, sizeof plain) == 0 && memcmp(work, plain_work, sizeof plain_work) == 0
        && memcmp(handler, pair.handler, pair.handler_len) == 0 && memcmp(proof, pair.proof, pair.proof_len) == 0;
    *admissions += handover_admitted(known);
    return same && handover_admitted(handover_release(plain, HANDOVER_RECORD_NUMBERS, 0))
        && handover_admitted(handover_release(record, HANDOVER_RECORD_NUMBERS, 0)) && memcmp(record, plain, sizeof plain) == 0;
}

/* Whether every length of a record but the right one is refused, with a place in the last slot that is there in full. Its count says
   that there are more. */
static bool short_records(void)
{
    bool same = true;
    for (size_t numbers = 0; numbers <= 60; numbers++) {
        for (int at_end = 0; at_end < 2; at_end++) {
            uint32_t *record = record_at(numbers, at_end == 1);
            size_t full = numbers < 5 ? 0 : (numbers - 2) / 3 > HANDOVER_PLACES ? HANDOVER_PLACES : (numbers - 2) / 3;
            memset(record, 0xFF, numbers * sizeof *record);
            if (full > 0) {
                record[3 * full - 1] = 0;
            }
            uint32_t admit = full > 0 ? HANDOVER_ADMIT_TAKEN : HANDOVER_ADMIT_RECORD;
            uint32_t release = full > 0 ? HANDOVER_ADMIT_RECORD : HANDOVER_ADMIT_TAKEN;
            uint64_t answer = handover_admit(record, numbers, 0, pair.handler, pair.handler_len, pair.proof, pair.proof_len, 1,
                                             plain_work, HANDOVER_WORK_WORDS);
            same = same && handover_number(answer) == admit;
            same = same && handover_number(handover_release(record, numbers, 0)) == release;
        }
    }
    return same;
}

/* The views of two files, the place of a refusal first. */
static void look(const uint8_t *handler, const uint8_t *proof, uint64_t check, uint64_t views[PLACES])
{
    const uint64_t handler_bits = 8 * pair.handler_len, proof_bits = 8 * pair.proof_len;
    const struct {
        uint32_t number;
        uint32_t kind;
        uint64_t place;
    } asked[PLACES] = {
        {handover_number(check), (uint32_t)handover_kind(check), handover_place(check)},
        {HANDOVER_FAULT_RULE, HANDOVER_NODE, 0},
        {HANDOVER_FAULT_RULE, HANDOVER_NODE, 127},
        {HANDOVER_FAULT_HANDLER_FILL, HANDOVER_BIT, handler_bits - 1},
        {HANDOVER_FAULT_HANDLER_FILL, HANDOVER_BIT, handler_bits},
        {HANDOVER_FAULT_PROOF_FILL, HANDOVER_BIT, proof_bits - 1},
        {HANDOVER_FAULT_PROOF_FILL, HANDOVER_BIT, proof_bits},
    };
    for (int i = 0; i < PLACES; i++) {
        views[i] = handover_view(handler, pair.handler_len, proof, pair.proof_len, asked[i].number, asked[i].kind,
                                 asked[i].place);
    }
}

/* Whether the calls do with guarded buffers what they do with ordinary ones. */
static bool same_at(bool at_end, const struct answers *known)
{
    uint64_t views[PLACES];
    uint8_t *handler = placed(rooms[0], pair.handler_len, at_end);
    uint8_t *proof = placed(rooms[1], pair.proof_len, at_end);
    uint64_t *work = (uint64_t *)(void *)placed(rooms[2], sizeof plain_work, at_end);
    memcpy(handler, pair.handler, pair.handler_len);
    memcpy(proof, pair.proof, pair.proof_len);
    look(handler, proof, known->check, views);
    memset(work, 0x77, sizeof plain_work);
    bool same = memcmp(views, known->views, sizeof views) == 0
        && handover_root(handler, pair.handler_len, proof, pair.proof_len) == known->root
        && handover_check(handler, pair.handler_len, proof, pair.proof_len, work, HANDOVER_WORK_WORDS) == known->check
        && memcmp(work, plain_work, sizeof plain_work) == 0;
    memset(work, 0x77, sizeof plain_work);
    same = same
        && handover_states(handler, pair.handler_len, proof, pair.proof_len, work, HANDOVER_WORK_WORDS) == known->states
        && memcmp(work, plain_work, sizeof plain_work) == 0;
    same = same && same_form(handler, proof, at_end, known);
    return same && memcmp(handler, pair.handler, pair.handler_len) == 0 && memcmp(proof, pair.proof, pair.proof_len) == 0;
}

/* The answers with ordinary buffers. The check and the states must leave the same words. */
static struct answers answers_of_pair(void)
{
    struct answers known;
    memset(plain_work, 0x77, sizeof plain_work);
    memset(plain_states_work, 0x77, sizeof plain_states_work);
    known.root = handover_root(pair.handler, pair.handler_len, pair.proof, pair.proof_len);
    known.check = handover_check(pair.handler, pair.handler_len, pair.proof, pair.proof_len, plain_work, HANDOVER_WORK_WORDS);
    known.states =
        handover_states(pair.handler, pair.handler_len, pair.proof, pair.proof_len, plain_states_work, HANDOVER_WORK_WORDS);
    known.form =
        handover_canonical(pair.handler, pair.handler_len, pair.proof, pair.proof_len, plain_out, sizeof plain_out);
    look(pair.handler, pair.proof, known.check, known.views);
    return known;
}

int main(int argc, char **argv)
{
    FILE *file = argc == 2 ? fopen(argv[1], "rb") : NULL;
    size_t pairs = 0, forms = 0, compositions = 0, admissions = 0;
    if (file == NULL) {
        give_up("usage: bounds FILE");
    }
    for (int i = 0; i < ROOMS; i++) {
        rooms[i] = guarded();
    }
    for (; next_pair(file, &pair); pairs++) {
        struct answers known = answers_of_pair();
        bool same = memcmp(plain_work, plain_states_work, sizeof plain_work) == 0;
        forms += form_length(&known) > 0;
        make_quiet(&pair, &quiet);
        same = same && same_at(true, &known) && same_at(false, &known);
        same = same && same_admission(true, &admissions) && same_admission(false, &admissions);
        if (!same || !same_composition(&pair, &compositions) || !same_composition(&quiet, &compositions)) {
            printf("bounds: pair %zu differs\n", pairs);
            return 1;
        }
    }
    if (!short_records()) {
        printf("bounds: a record of another length is not refused as it must be\n");
        return 1;
    }
    printf("bounds: %zu pairs, %zu forms, %zu compositions, %zu admissions\n", pairs, forms, compositions, admissions);
    return forms > 0 && compositions > 0 && admissions > 0 ? 0 : 2;
}
