/* admit FRAME TICKS HANDLER PROOF ..: admits guests to a frame of so many ticks over the C interface, in the order of the arguments, and
   prints where they run. A guest is its ticks per step and its two files. The first one asks for place 0, the next one for place 1, and
   so on. For each guest there is a line, one of

       place P first F length L
       place P refused NUMBER bit B
       place P refused NUMBER node D

   and last `left over N`, the ticks that no slot has; a frame that is too long has none.

   Exit status: 0 all guests were admitted, 1 one was refused, 2 neither (bad arguments, a file that cannot be read, output that cannot
   be written). */
#include "handover.h"

#include <errno.h>
#include <inttypes.h>
#include <stdio.h>
#include <stdlib.h>
#include <string.h>

enum { ADMITTED = 0, REFUSED = 1, NEITHER = 2, MOST_GUESTS = 64 };

/* A file, with room for one byte more than a file may have: by that byte the checker sees that the file is too long. */
struct file {
    uint8_t bytes[HANDOVER_MOST_BYTES + 1];
    size_t length;
};

/* Says on standard error what failed. */
static bool failed(const char *what, const char *name)
{
    fprintf(stderr, "admit: cannot %s %s: %s\n", what, name, strerror(errno));
    return false;
}

/* Reads a file, or says why that failed. */
static bool read_file(const char *name, struct file *file)
{
    FILE *stream = fopen(name, "rb");
    if (stream == NULL) {
        return failed("read", name);
    }
    file->length = fread(file->bytes, 1, sizeof file->bytes, stream);
    bool good = ferror(stream) == 0 || failed("read", name);
    fclose(stream);
    return good;
}

/* Reads a number of 32 bits in decimal digits; any number may be passed on, since the call refuses those that are out of range. */
static bool read_number(const char *text, uint32_t *number)
{
    char *end;
    errno = 0;
    unsigned long long value = strtoull(text, &end, 10);
    bool good = text[0] >= '0' && text[0] <= '9' && *end == '\0' && errno == 0 && value <= UINT32_MAX;
    if (!good) {
        fprintf(stderr, "admit: not a number of 32 bits: %s\n", text);
    }
    *number = (uint32_t)value;
    return good;
}

/* Admits one guest by its three arguments. */
static bool admit(uint32_t *record, uint32_t place, char **arguments, uint64_t *answer)
{
    /* Static, because they take 40 KiB; each is an object of its own, so none overlaps another. */
    static struct file handler, proof;
    static uint64_t work[HANDOVER_WORK_WORDS];
    uint32_t ticks;

    if (!read_number(arguments[0], &ticks) || !read_file(arguments[1], &handler) || !read_file(arguments[2], &proof)) {
        return false;
    }
    *answer = handover_admit(record, HANDOVER_RECORD_NUMBERS, place, handler.bytes, handler.length, proof.bytes, proof.length, ticks,
                             work, HANDOVER_WORK_WORDS);
    return true;
}

/* The line of a refused guest. */
static void print_refusal(uint32_t place, uint64_t answer)
{
    const char *kind = handover_kind(answer) == HANDOVER_NODE ? "node" : "bit";
    printf("place %" PRIu32 " refused %" PRIu32 " %s %" PRIu32 "\n", place, handover_number(answer), kind, handover_place(answer));
}

/* The lines of all guests, and the ticks that are left. The slots are in order of admission, which is that of the guests. */
static void print_table(const uint32_t *record, uint32_t frame, const uint64_t *answers, uint32_t guests)
{
    uint32_t slot = 0, left = frame <= HANDOVER_MOST_FRAME ? frame : 0;
    for (uint32_t guest = 0; guest < guests; guest++) {
        if (!handover_admitted(answers[guest])) {
            print_refusal(guest, answers[guest]);
            continue;
        }
        printf("place %" PRIu32 " first %" PRIu32 " length %" PRIu32 "\n", handover_slot_place(record, slot),
               handover_slot_first(record, slot), handover_slot_length(record, slot));
        left -= handover_slot_length(record, slot);
        slot++;
    }
    printf("left over %" PRIu32 "\n", left);
}

int main(int argc, char **argv)
{
    uint32_t record[HANDOVER_RECORD_NUMBERS], frame;
    uint64_t answers[MOST_GUESTS];
    uint32_t guests = argc < 2 ? 0 : (uint32_t)(argc - 2) / 3;

    if (argc < 2 || (argc - 2) % 3 != 0 || guests > MOST_GUESTS) {
        fprintf(stderr, "usage: admit FRAME [TICKS HANDLER PROOF]..., for at most %d guests\n", MOST_GUESTS);
        return NEITHER;
    }
    if (!read_number(argv[1], &frame)) {
        return NEITHER;
    }
    handover_bare(record, frame);
    for (uint32_t guest = 0; guest < guests; guest++) {
        if (!admit(record, guest, argv + 2 + 3 * guest, &answers[guest])) {
            return NEITHER;
        }
    }
    print_table(record, frame, answers, guests);
    if (fflush(stdout) != 0 || ferror(stdout) != 0) {
        failed("write", "standard output");
        return NEITHER;
    }
    return handover_slots(record) == guests ? ADMITTED : REFUSED;
}
