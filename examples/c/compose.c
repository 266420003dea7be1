/* compose H1 P1 H2 P2 HOUT POUT: composes two accepted pairs of files over the C interface, as the check program does, and prints the
   line that it prints. The handler file of their parallel goes to HOUT, and its proof file to POUT. On refusal neither is touched.

   Exit status: 0 composed, 1 refused, 2 neither (bad arguments, a file that cannot be read, output that cannot be written). */
#include "handover.h"

#include <errno.h>
#include <inttypes.h>
#include <stdio.h>
#include <string.h>

enum { COMPOSED = 0, REFUSED = 1, NEITHER = 2 };

/* A file, with room for one byte more than a file may have: by that byte it is seen that the file is too long. */
struct file {
    uint8_t bytes[HANDOVER_MOST_BYTES + 1];
    size_t length;
};

/* Says on standard error what failed. */
static bool failed(const char *what, const char *name)
{
    fprintf(stderr, "compose: cannot %s %s: %s\n", what, name, strerror(errno));
    return false;
}

/* Reads a file, or says why that failed. */
static bool read_file(const char *name, struct file *file)
{
    FILE *stream = fopen(name, "rb");
    if (stream == NULL) {
        return failed("read", name);
    }
    file->length = fread(file->bytes, 1, sizeof file->bytes, stream);
    bool good = ferror(stream) == 0 || failed("read", name);
    fclose(stream);
    return good;
}

/* Writes a file, or says why that failed. */
static bool write_file(const char *name, const uint8_t *bytes, size_t length)
{
    FILE *stream = fopen(name, "wb");
    if (stream == NULL) {
        return failed("write", name);
    }
    bool good = fwrite(bytes, 1, length, stream) == length;
    good = fclose(stream) == 0 && good;
    return good || failed("write", name);
}

/* The line of a refusal: the fault, and the pair that it is about. */
static void print_refusal(uint64_t answer)
{
    static const char *const pairs[] = {"", " first pair", " second pair"};
    uint64_t fault = handover_composed_fault(answer);
    const char *kind = handover_kind(fault) == HANDOVER_NODE ? "node" : "bit";
    printf("refused %" PRIu32 " %s %" PRIu32 "%s\n", handover_number(fault), kind, handover_place(fault),
           pairs[handover_composed_pair(answer)]);
}

int main(int argc, char **argv)
{
    /* Static, because together they take 100 KiB; each is an object of its own, so none overlaps another. */
    static struct file h1, p1, h2, p2;
    static uint64_t work[HANDOVER_WORK_WORDS];
    static uint8_t handler[HANDOVER_MOST_BYTES], proof[HANDOVER_MOST_BYTES];

    if (argc != 7) {
        fprintf(stderr, "usage: compose H1 P1 H2 P2 HOUT POUT\n");
        return NEITHER;
    }
    if (!read_file(argv[1], &h1) || !read_file(argv[2], &p1) || !read_file(argv[3], &h2) || !read_file(argv[4], &p2)) {
        return NEITHER;
    }
    uint64_t answer = handover_compose(h1.bytes, h1.length, p1.bytes, p1.length, h2.bytes, h2.length, p2.bytes, p2.length, work,
                                       HANDOVER_WORK_WORDS, handler, sizeof handler, proof, sizeof proof);
    if (!handover_composed(answer)) {
        print_refusal(answer);
    } else if (write_file(argv[5], handler, handover_composed_handler(answer))
               && write_file(argv[6], proof, handover_composed_proof(answer))) {
        printf("composed %" PRIu32 "\n", handover_composed_steps(answer));
    } else {
        return NEITHER;
    }
    if (fflush(stdout) != 0 || ferror(stdout) != 0) {
        failed("write", "standard output");
        return NEITHER;
    }
    return handover_composed(answer) ? COMPOSED : REFUSED;
}
