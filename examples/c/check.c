/* check HANDLER PROOF: checks two files over the C interface and prints the line that the check program prints. On acceptance it
   also prints what a host must know of the pair: the number of states N, and the root's precondition P (a set of states), rely R,
   guarantee G and postcondition Q (sets of pairs of states); and then the length of the proof's one form, by which an archive keeps
   it once. On refusal it prints what helps to find the fault: the states that break the condition, and the first byte at the place.

   Exit status: 0 accepted, 1 refused, 2 no verdict (bad arguments, a file that cannot be read, output that cannot be written). */
#include "handover.h"

#include <errno.h>
#include <inttypes.h>
#include <stdio.h>
#include <string.h>

enum { ACCEPTED = 0, REFUSED = 1, NO_VERDICT = 2 };

/* A file, with room for one byte more than a file may have: by that byte the checker sees that the file is too long. */
struct file {
    uint8_t bytes[HANDOVER_MOST_BYTES + 1];
    size_t length;
};

/* Reads a file, or says on standard error why that failed. */
static bool read_file(const char *name, struct file *file)
{
    FILE *stream = fopen(name, "rb");
    bool good = stream != NULL;
    if (good) {
        file->length = fread(file->bytes, 1, sizeof file->bytes, stream);
        good = ferror(stream) == 0;
    }
    if (!good) {
        fprintf(stderr, "check: cannot read %s: %s\n", name, strerror(errno));
    }
    if (stream != NULL) {
        fclose(stream);
    }
    return good;
}

/* The line of the check program. */
static void print_line(uint64_t answer)
{
    if (handover_accepted(answer)) {
        printf("accepted %" PRIu32 "\n", handover_steps(answer));
    } else {
        const char *kind = handover_kind(answer) == HANDOVER_NODE ? "node" : "bit";
        printf("refused %" PRIu32 " %s %" PRIu32 "\n", handover_number(answer), kind, handover_place(answer));
    }
}

/* A set as its states. */
static void print_set(const char *name, const uint64_t *work, uint32_t set, uint32_t states)
{
    printf("%s, set %" PRIu32 ":", name, set);
    for (uint32_t s = 0; s < states; s++) {
        if (handover_in_set(work, set, s)) {
            printf(" %" PRIu32, s);
        }
    }
    printf("\n");
}

/* A relation as its pairs of states. */
static void print_relation(const char *name, const uint64_t *work, uint32_t relation, uint32_t states)
{
    printf("%s, relation %" PRIu32 ":", name, relation);
    for (uint32_t s = 0; s < states; s++) {
        for (uint32_t t = 0; t < states; t++) {
            if (handover_in_relation(work, relation, s, t)) {
                printf(" (%" PRIu32 ",%" PRIu32 ")", s, t);
            }
        }
    }
    printf("\n");
}

/* What the host must keep (R) and may count on (G and Q) if it starts the handler at a state of P. */
static void print_root(const uint64_t *work, uint64_t root)
{
    uint32_t states = handover_root_states(root);
    printf("N: %" PRIu32 " states\n", states);
    print_set("P", work, handover_root_precondition(root), states);
    print_relation("R", work, handover_root_rely(root), states);
    print_relation("G", work, handover_root_guarantee(root), states);
    print_relation("Q", work, handover_root_postcondition(root), states);
}

/* The length of the proof file's one form, and whether the file is in it already. */
static void print_form(const struct file *handler, const struct file *proof)
{
    static uint8_t form[HANDOVER_MOST_BYTES];
    uint64_t answer = handover_canonical(handler->bytes, handler->length, proof->bytes, proof->length, form, sizeof form);
    if (handover_written(answer)) {
        size_t length = handover_length(answer);
        bool same = length == proof->length && memcmp(form, proof->bytes, length) == 0;
        printf("form: %zu bytes, %s\n", length, same ? "those of the proof file" : "not those of the proof file");
    }
}

/* The states that a refusal names, in the order of docs/RULES.md. */
static void print_states(uint64_t states)
{
    uint32_t count = handover_states_count(states);
    printf("states:%s", count == 0 ? " none" : "");
    for (uint32_t i = 0; i < count; i++) {
        printf(" %" PRIu32, handover_states_at(states, i));
    }
    printf("\n");
}

/* The first byte at the place of a refusal, if the place is in a file. */
static void print_place(const struct file *handler, const struct file *proof, uint64_t answer)
{
    uint64_t view = handover_view(handler->bytes, handler->length, proof->bytes, proof->length, handover_number(answer),
                                  (uint32_t)handover_kind(answer), handover_place(answer));
    bool in_proof = handover_view_file(view) == HANDOVER_PROOF_FILE;
    const struct file *file = in_proof ? proof : handler;
    const char *name = in_proof ? "proof" : "handler";
    size_t index = handover_view_index(view);
    if (index < file->length) {
        printf("place: byte %zu of the %s file, %02X\n", index, name, file->bytes[index]);
    } else {
        printf("place: no byte of the %s file\n", name);
    }
}

int main(int argc, char **argv)
{
    /* Static, because a file and the work words take 24 KiB; each is an object of its own, so none overlaps another. */
    static struct file handler, proof;
    static uint64_t work[HANDOVER_WORK_WORDS];

    if (argc != 3) {
        fprintf(stderr, "usage: check HANDLER PROOF\n");
        return NO_VERDICT;
    }
    if (!read_file(argv[1], &handler) || !read_file(argv[2], &proof)) {
        return NO_VERDICT;
    }
    uint64_t answer = handover_check(handler.bytes, handler.length, proof.bytes, proof.length, work, HANDOVER_WORK_WORDS);
    print_line(answer);
    if (handover_accepted(answer)) {
        /* Not 0: both files of an accepted pair are well-formed. */
        print_root(work, handover_root(handler.bytes, handler.length, proof.bytes, proof.length));
        print_form(&handler, &proof);
    } else {
        print_states(handover_states(handler.bytes, handler.length, proof.bytes, proof.length, work, HANDOVER_WORK_WORDS));
        print_place(&handler, &proof, answer);
    }
    if (fflush(stdout) != 0 || ferror(stdout) != 0) {
        fprintf(stderr, "check: cannot write: %s\n", strerror(errno));
        return NO_VERDICT;
    }
    return handover_accepted(answer) ? ACCEPTED : REFUSED;
}
