/* handover.h: the C interface of the handover handler checker, for C11 and C++17.

   A handler file holds a short parallel program over a few shared variables. A proof file holds a derivation: from which states
   the program may start, which changes by others it tolerates, which changes it makes, and where it ends. handover_check decides
   whether the derivation is right. Where it is, handover_root says which of its tables the decision is about. Where it is not,
   handover_states gives the states that break a condition, and handover_view the bytes at the place of the fault.
   handover_canonical writes a proof file in its one form, so that equal proofs are equal files. handover_compose writes the two
   files of the parallel of two accepted pairs. handover_admit gives an accepted pair a slot in the frame of a core, and
   handover_release takes it back. All eight are in crates/host/out/libhost.a, which `rt lib` in crates/host writes: an archive for
   x86-64 and the System V calling convention that has no other global symbols.

   docs/FORMAT.md describes the two files, docs/RULES.md the rules and what acceptance promises, docs/COMPOSITION.md the parallel of
   two pairs, docs/ADMISSION.md frames and slots, docs/FAULTS.md every fault number. examples/c has three programs that use all this.

   What the host owes, in every call:
   - No pointer is null, also where its length is 0. (Pass the address of any object then.)
   - handler and proof point to handler_len and proof_len readable bytes; work points to work_len readable and writable words, and
     out to out_len readable and writable bytes; record points to record_len readable and writable numbers. In handover_compose that
     holds for h1, p1, h2 and p2 as for handler and proof, and for hout and pout as for out. Every length may be passed: if a file
     has more than HANDOVER_MOST_BYTES bytes, the pair is refused with number 2. Only handover_view wants files of fewer than 2^32
     bytes, so that its answer can be taken apart.
   - work is aligned to 8 bytes, as every array of uint64_t is, and record to 4, as every array of uint32_t is. The files and out need
     no alignment.
   - work, out and record overlap neither handler nor proof: that is what `restrict` says below. Where they do, the behaviour is
     undefined, and the answer can be `accepted` for a pair that must be refused. In handover_compose no two of work, hout and pout
     overlap either, and in handover_admit work and record do not. The files are only read, and may overlap each other.
   - Until the call returns, nothing else (no thread, guest or device) writes the files, or reads or writes the work words, out or the
     record. If a guest can write the memory that its files are in, the host copies them first.
   - HANDOVER_STACK_BYTES of stack are free at the call, for handover_compose HANDOVER_COMPOSE_STACK_BYTES.

   What the host gets, from every call:
   - It returns. No content of the files makes it run forever, or read or write outside the buffers.
   - It allocates no memory, makes no system call, and has no global variables, so nothing is kept from one call to the next but what
     the host keeps in a record. Calls from several threads at once are safe if each call has its own work words, its own out and its
     own record; they may share the files.
   - It writes the first HANDOVER_WORK_WORDS work words at most (handover_root, handover_view, handover_canonical and handover_release
     have none), of out only as many bytes as the answer says, the record only if the answer is 0, and never the files.
   - Its answer depends on what is passed alone: on the bytes of the files, the number of work words or of bytes of out (not what
     they hold), the number, kind and place of handover_view, and the record, the place and the ticks of the last two functions.
   - Of the C library it needs memcpy and memset, and nothing else.
   - It uses the vector registers xmm0 to xmm15 with SSE2 instructions, for moves and for integer arithmetic; there is no
     floating-point arithmetic, no x87 and no AVX. The host's memcpy and memset may use more. So code that must leave vector
     registers alone, in a kernel or an interrupt handler, saves them before the call and restores them after it. */
#ifndef HANDOVER_H
#define HANDOVER_H

#include <stdbool.h>
#include <stddef.h>
#include <stdint.h>

#ifdef __cplusplus
#define HANDOVER_RESTRICT __restrict
extern "C" {
#else
#define HANDOVER_RESTRICT restrict
#endif

/* Limits. */
#define HANDOVER_WORK_WORDS 1040                     /* work words that are needed and written where work words are passed */
#define HANDOVER_MOST_BYTES 16384                    /* the longest handler file or proof file that is read or written */
#define HANDOVER_MOST_STEPS UINT32_C(4294967295)     /* the largest step number that is accepted */
#define HANDOVER_MOST_STATES 64                      /* the largest N, the number of states */
#define HANDOVER_MOST_SETS 16                        /* sets in a proof file */
#define HANDOVER_MOST_RELATIONS 16                   /* relations in a proof file */
#define HANDOVER_STACK_BYTES 65536                   /* stack that is enough for a call; tests/c/stack.c measures it */
#define HANDOVER_COMPOSE_STACK_BYTES 98304           /* the same for handover_compose */
#define HANDOVER_RECORD_NUMBERS 50                   /* numbers in the record of a frame */
#define HANDOVER_PLACES 16                           /* guest places of a core, from 0 on, and the most slots of a frame */
#define HANDOVER_MOST_FRAME 1000000                  /* ticks of the longest frame; the shortest has 1 */
#define HANDOVER_MOST_TICKS 1000                     /* the most ticks per step of a guest; the least are 1 */

/* Whether the place of a fault is a bit of a file or a node of the derivation. */
enum handover_place_kind {
    HANDOVER_BIT = 0,  /* counted from 0, most significant bit of the first byte first, in the file at fault */
    HANDOVER_NODE = 1  /* counted from 0 in the order of the proof file */
};

/* One of the two files. */
enum handover_file {
    HANDOVER_HANDLER_FILE = 0,
    HANDOVER_PROOF_FILE = 1
};

/* The numbers of faults. docs/FAULTS.md says of each what it means and how to mend it. At one node, 36, 37 and 38 are looked for
   directly after 34, and 57 directly after 51. [s], [s, t] .. are the states that handover_states gives. */
enum handover_fault {
    HANDOVER_FAULT_NONE = 0,               /* accepted */

    /* Caused by the host. */
    HANDOVER_FAULT_WORK_WORDS = 1,         /* fewer than HANDOVER_WORK_WORDS work words */
    HANDOVER_FAULT_FILE_LENGTH = 2,        /* a file longer than HANDOVER_MOST_BYTES */
    HANDOVER_FAULT_OUTPUT_SHORT = 3,       /* handover_canonical alone: out has fewer bytes than the file to be written */

    /* Caused by the exporter of the handler file; the place is a bit of it. */
    HANDOVER_FAULT_HANDLER_SHORT = 10,     /* a field runs past the end of the file */
    HANDOVER_FAULT_VARIABLE_COUNT = 11,    /* the number of variables is not 1 to 4 */
    HANDOVER_FAULT_SIZE = 12,              /* a size is not 2 to 16 */
    HANDOVER_FAULT_STATES = 13,            /* the product of the sizes is over 64 */
    HANDOVER_FAULT_HANDLER_CODE = 14,      /* an unused code of a statement or an operation */
    HANDOVER_FAULT_VARIABLE = 15,          /* no such variable */
    HANDOVER_FAULT_KINDS = 16,             /* an integer where a truth value is wanted, or the reverse */
    HANDOVER_FAULT_HANDLER_LIMIT = 17,     /* more than 63 statements, 16 levels, or 31 nodes in an expression */
    HANDOVER_FAULT_HANDLER_FILL = 18,      /* a fill bit that is not 0, or a byte after the last field */

    /* Caused by the designer of the proof file; the place is a bit of it. */
    HANDOVER_FAULT_PROOF_SHORT = 20,       /* a field runs past the end of the file */
    HANDOVER_FAULT_TABLE_COUNT = 21,       /* the number of sets or of relations is not 1 to 16 */
    HANDOVER_FAULT_RULE_CODE = 22,         /* the unused rule code 7 */
    HANDOVER_FAULT_TABLE = 23,             /* no such set or relation */
    HANDOVER_FAULT_PROOF_LIMIT = 24,       /* more than 127 nodes or 24 levels */
    HANDOVER_FAULT_PROOF_FILL = 25,        /* a fill bit that is not 0, or a byte after the last field */

    /* Caused by the designer of the proof file; the place is a node. */
    HANDOVER_FAULT_RULE = 30,              /* the rule is not that of the statement */
    HANDOVER_FAULT_P_UNSTABLE = 31,        /* others can leave P [s, t] */
    HANDOVER_FAULT_Q_BEFORE = 32,          /* changes by others before the statement lead outside Q [s, t, u] */
    HANDOVER_FAULT_Q_AFTER = 33,           /* changes by others after the statement lead outside Q [s, t, u] */
    HANDOVER_FAULT_CHILD_P = 34,           /* a child's P is not the one that the rule gives it */
    HANDOVER_FAULT_SKIP_Q = 35,            /* skip: a state of P without (s,s) in Q [s] */
    HANDOVER_FAULT_CHILD_R = 36,           /* a child's R is not the one that the rule gives it */
    HANDOVER_FAULT_CHILD_G = 37,           /* a child's G is not the one that the rule gives it */
    HANDOVER_FAULT_CHILD_Q = 38,           /* a child's Q is not the one that the rule gives it */
    /* 40 is unused since A5: a store wraps. */
    HANDOVER_FAULT_ASSIGNMENT_MOVED = 41,  /* assignment: others change a variable of the expression */
    HANDOVER_FAULT_ASSIGNMENT_Q = 42,      /* assignment: the store is not in Q [s, s'] */
    HANDOVER_FAULT_ASSIGNMENT_G = 43,      /* assignment: the store is not in G [s, s'] */
    HANDOVER_FAULT_IF_MOVED = 45,          /* if: others change a variable of the test */
    HANDOVER_FAULT_IF_Q = 46,              /* if: a state of P with a false test, without (s,s) in Q [s] */
    HANDOVER_FAULT_WHILE_MOVED = 50,       /* while: the test reads more than once what others change */
    HANDOVER_FAULT_WHILE_W_SELF = 51,      /* while: W has a pair (s,s) [s] */
    HANDOVER_FAULT_WHILE_K = 52,           /* while: a state of P with a true test is not in K [s] */
    HANDOVER_FAULT_WHILE_K_UNSTABLE = 53,  /* while: others can leave K [s, t] */
    HANDOVER_FAULT_WHILE_TEST = 54,        /* while: others can make a false test true [s, t] */
    HANDOVER_FAULT_WHILE_RELY = 55,        /* while: others change the state outside W [s, t] */
    HANDOVER_FAULT_WHILE_Q = 56,           /* while: the loop can end outside Q [s, t] */
    HANDOVER_FAULT_WHILE_W_GAP = 57,       /* while: W is not transitive: (s,t) and (t,u), but not (s,u) [s, t, u] */
    HANDOVER_FAULT_SEQUENCE_P = 60,        /* sequence: the left part can end outside the right part's P [s, t] */
    HANDOVER_FAULT_SEQUENCE_Q = 61,        /* sequence: the left and then the right part lead outside Q [s, t, u] */
    HANDOVER_FAULT_PARALLEL_G = 65,        /* parallel: a child's G is not within G */
    HANDOVER_FAULT_PARALLEL_Q = 66,        /* parallel: both children can end outside Q [s, t] */
    HANDOVER_FAULT_WEAKEN_P = 70,          /* weaken: P is not within the child's P */
    HANDOVER_FAULT_WEAKEN_R = 71,          /* weaken: R is not within the child's R */
    HANDOVER_FAULT_WEAKEN_G = 72,          /* weaken: the child's G is not within G */
    HANDOVER_FAULT_WEAKEN_Q = 73,          /* weaken: the child's Q is not within Q */
    HANDOVER_FAULT_STEPS = 80              /* the step number is over HANDOVER_MOST_STEPS (node 0) */
};

/* The numbers of faults of two accepted pairs, which handover_compose alone gives, each at bit 0. Its numbers from 1 to 80 are those of
   enum handover_fault. */
enum handover_compose_fault {
    HANDOVER_COMPOSE_SIZES = 90,     /* the sizes of the variables differ */
    HANDOVER_COMPOSE_SECOND_G = 91,  /* the second pair's G is not within the first pair's R */
    HANDOVER_COMPOSE_FIRST_G = 92,   /* the first pair's G is not within the second pair's R */
    HANDOVER_COMPOSE_P = 93,         /* a pair of either G leads out of the states that both P have */
    HANDOVER_COMPOSE_LIMIT = 94,     /* the result is over a limit of its files or of the step number */
    HANDOVER_COMPOSE_OUTPUT = 95     /* hout or pout has fewer bytes than its file */
};

/* The numbers of faults which handover_admit and handover_release alone give, each at bit 0. The numbers from 1 to 80 of handover_admit
   are those of enum handover_fault. They are looked for in the order 100, 101, 102, 104, 1 to 80, 103. */
enum handover_admit_fault {
    HANDOVER_ADMIT_PLACE = 100,   /* there is no such place: it is over 15 */
    HANDOVER_ADMIT_TAKEN = 101,   /* the place is taken; in handover_release, it is not taken */
    HANDOVER_ADMIT_RECORD = 102,  /* the record is ill-formed, or record_len is not HANDOVER_RECORD_NUMBERS */
    HANDOVER_ADMIT_ROOM = 103,    /* the needs of the guests present and of this one add up to more than the frame */
    HANDOVER_ADMIT_TICKS = 104    /* the ticks per step are not 1 to HANDOVER_MOST_TICKS */
};

/* Checks a handler file against a proof file. The functions below take the answer apart.

   On acceptance the first HANDOVER_WORK_WORDS work words hold the tables of the proof file (see handover_set_word and
   handover_row_word), and 0 where there is no table. Refusals 1 and 2 write nothing; every other refusal leaves these words 0.
   Words after them never change.

   What acceptance promises. Let P, R, G and Q be the tables that handover_root names for the same two files. If the handler starts
   at a state of P, and every change that others make to the variables is a pair of R (from the state before it to the state
   after it), then at every moment, until the handler has ended and after it:
   - the handler has made at most handover_steps(answer) steps;
   - each of its steps that changed the state was a pair of G;
   - it has not stopped half-way: no part waits for a step that it cannot make, and unless it has ended it has a step to make;
   - if it has ended, the pair of the start and the present state is in Q.
   That is all. Nothing is said of a run in which others make a change outside R even once, of a start outside P (so nothing at
   all where P is empty), or of time. */
uint64_t handover_check(const uint8_t *HANDOVER_RESTRICT handler, size_t handler_len,
                        const uint8_t *HANDOVER_RESTRICT proof, size_t proof_len,
                        uint64_t *HANDOVER_RESTRICT work, size_t work_len);

/* The number of states and the numbers of the root's tables. If both files are well-formed, the answer is
   N + 2^8 P + 2^16 R + 2^24 G + 2^32 Q, which is not 0, since N is at least 2. If either is not, the answer is 0: a file that is
   longer than HANDOVER_MOST_BYTES, or in which handover_check finds a fault with a number from 10 to 25.
   It needs no work words, writes nothing, and looks at no condition: it also answers for a pair that is refused with 30 to 80. */
uint64_t handover_root(const uint8_t *handler, size_t handler_len, const uint8_t *proof, size_t proof_len);

/* The states that break the condition for which handover_check refuses the pair. It makes the same check once more, and leaves the
   work words as handover_check does, in every case; with the same arguments both speak of the same fault.
   The answer is count * 2^24 + first + 2^8 second + 2^16 third, where a state that is not named counts as 0:
   - for the numbers that have states in enum handover_fault, these, in that order; every state is below N, and count is 1 to 3, so
     that the answer is not 0;
   - for every other number, and for an accepted pair, 0.
   They are the least states that break the condition: by the first, then by the second, then by the third. Other states may break
   it too. The same state can be named twice, for example as s and u. docs/RULES.md has the conditions in which they are named. */
uint64_t handover_states(const uint8_t *HANDOVER_RESTRICT handler, size_t handler_len,
                         const uint8_t *HANDOVER_RESTRICT proof, size_t proof_len,
                         uint64_t *HANDOVER_RESTRICT work, size_t work_len);

/* Where the place of a fault is in the files: the file, and the index of the byte from which on it is shown, to the end of the file.
   number, kind (of enum handover_place_kind) and place are those of a refusal of these two files. But every value may be passed:

       number                                     kind     file       first byte shown
       10 to 18                                   a bit    handler    the byte that holds bit `place`
       20 to 25                                   a bit    proof      the byte that holds bit `place`
       30 to 38, 41 to 43, 45, 46, 50 to 57,      a node   proof      the byte in which the rule code of node `place` begins
       60, 61, 65, 66, 70 to 73, 80
       every other combination, among them 1      any      handler    none
       and 2, and every kind but these two

   The answer is file * 2^32 + the index of that byte, and where no byte is shown, file * 2^32 + the length of that file:
   - where the row above says so;
   - where the file does not have the bit: place is 8 times its length or more. So it is with 10 and 20, whose place is the end;
   - where the derivation does not have the node, however large place is;
   - for every node if either file is ill-formed: longer than HANDOVER_MOST_BYTES, or with a fault from 10 to 25.
   A bit is shown whatever else is wrong with the files, and in a file that is longer than HANDOVER_MOST_BYTES too.
   If the length of a file is 2^32 or more, the answer is still this sum, but it does not determine file and index.
   It needs no work words, writes nothing, and looks at no condition. */
uint64_t handover_view(const uint8_t *handler, size_t handler_len, const uint8_t *proof, size_t proof_len, uint32_t number,
                       uint32_t kind, uint64_t place);

/* Writes the proof file in its one form (docs/FORMAT.md, "One form") at the start of out. The nodes and their rules are those of the
   file that is read. The sets, and the relations, are numbered by first mention, with the nodes in file order and P, R, G, Q, K, W
   within a node; tables with equal members are one, and those that no node names are left out. So:
   - two well-formed proof files over the same N have the same form, byte for byte, exactly if their nodes agree in rules and in the
     members of their tables;
   - for every handler file over that N, handover_check and handover_states answer the same for a proof file and for its form (the
     numbers of its tables, and so handover_root and the work words after acceptance, are those of the file that is passed);
   - the form is a well-formed proof file and its own form, and no longer than the file that is read.
   No condition is looked at: a pair that handover_check refuses at a node is written all the same.

   The answer is the length of what was written, below 2^32, or a fault as in an answer of handover_check; its place is a bit. It is
   the first of: 2; 10 to 18; 20 to 25; and 3, at bit 0, if out_len is less than that length. HANDOVER_MOST_BYTES bytes are enough
   for every proof file, and so are proof_len. Number 1 does not occur. After a fault all of out is as it was; otherwise its bytes
   past the file are. */
uint64_t handover_canonical(const uint8_t *HANDOVER_RESTRICT handler, size_t handler_len,
                            const uint8_t *HANDOVER_RESTRICT proof, size_t proof_len,
                            uint8_t *HANDOVER_RESTRICT out, size_t out_len);

/* Composes two pairs: the handler that runs the first handler and the second one in parallel, with a proof of it (docs/COMPOSITION.md).
   Its handler file, h1's statement left and h2's right, is written at the start of hout, and its proof file at the start of pout.
   handover_check accepts the two, with the step number of the answer. At the root of the proof P has the states that both P have, R
   the pairs that both R have, G the pairs of either G, and Q the pairs of both Q that can be reached.

   If both files are written, the top bit of the answer is 0, and it is steps + 2^32 (length in hout) + 2^47 (length in pout).
   If not, the top bit is 1, and it is 2^63 + 2^48 pair + the fault as in an answer of handover_check, (number * 2 + kind) * 2^32 +
   place. The pair is 1 or 2, or 0 if the fault is that of neither. It is the first of these:

       number      pair    place     fault
       1           0       bit 0     fewer than HANDOVER_WORK_WORDS work words
       2           1       bit 0     h1 or p1 longer than HANDOVER_MOST_BYTES
       2           2       bit 0     h2 or p2 longer than HANDOVER_MOST_BYTES
       10 to 80    1       its own   that for which handover_check refuses h1 with p1
       10 to 80    2       its own   that for which handover_check refuses h2 with p2
       90 to 94    0       bit 0     see enum handover_compose_fault
       95          0       bit 0     hout or pout shorter than its file; HANDOVER_MOST_BYTES bytes are enough for each

   After a fault all of hout and of pout is as it was; otherwise their bytes past the files are. Refusals 1 and 2 write no work words;
   every other answer leaves the first HANDOVER_WORK_WORDS of them 0. Words after them never change. */
uint64_t handover_compose(const uint8_t *HANDOVER_RESTRICT h1, size_t h1_len, const uint8_t *HANDOVER_RESTRICT p1, size_t p1_len,
                          const uint8_t *HANDOVER_RESTRICT h2, size_t h2_len, const uint8_t *HANDOVER_RESTRICT p2, size_t p2_len,
                          uint64_t *HANDOVER_RESTRICT work, size_t work_len, uint8_t *HANDOVER_RESTRICT hout, size_t hout_len,
                          uint8_t *HANDOVER_RESTRICT pout, size_t pout_len);

/* Admits a guest to the frame of a core, and gives it a slot of ticks (docs/ADMISSION.md). The host keeps the record of the frame from
   call to call. Its HANDOVER_RECORD_NUMBERS numbers are the length of the frame in ticks, the count of slots, and for each slot, in
   order of admission, its place, its first tick and its length. handover_bare makes the record of a frame without guests, and the
   functions after it read the slots.

   The guest is admitted to a free place, with its two files and with the ticks that each of its steps takes at most. It needs as many
   ticks as handover_steps of what handover_check answers for the files, times `ticks`. Its slot begins where the last one ends and is
   as long as it needs. If the step number is 0, the slot is empty, and the next one begins at the same tick.

   What an admission promises. Over any calls of handover_admit and handover_release from a bare record:
   - the slots lie end to end from tick 0, in order of admission, within the frame, and each is as long as its guest needs;
   - no place is there twice;
   - handover_check accepts the files of every guest that was admitted, so that what acceptance promises holds of its handler. Within
     that promise the handler makes at most slot length / ticks steps, so that `ticks` ticks for each step fit its slot;
   - a guest is refused for room only if the needs of the guests present and its own add up to more than the frame.

   The answer is 0 if the guest was admitted. If not, it is the fault as in an answer of handover_check, (number * 2 + kind) * 2^32 +
   place, and the first of these:

       number      place     fault
       100         bit 0     `place` is over 15
       101         bit 0     `place` is taken: one of the slots has it
       102         bit 0     record_len is not HANDOVER_RECORD_NUMBERS; the length of the frame is not 1 to HANDOVER_MOST_FRAME; the
                             count of slots is over HANDOVER_PLACES; a slot has a place over 15, or the place of another slot; or the
                             slots do not lie end to end from tick 0 within the frame
       104         bit 0     `ticks` is not 1 to HANDOVER_MOST_TICKS
       1 to 80     its own   that for which handover_check refuses the files with these work words
       103         bit 0     the lengths of all slots and the need of this guest add up to more than the frame

   101 comes before 102 for every record: it is asked of the slots that the record has in full, at most the first HANDOVER_PLACES of its
   count. What is past the slots of the count may be anything.

   After a fault all of the record is as it was. Otherwise the new slot is the last one, the slots before it are as they were, and every
   number past it is 0. The work words are untouched after 100, 101, 102 and 104. After every other answer they are as handover_check
   leaves them; so after 103 they hold the tables, as they do after 0. HANDOVER_STACK_BYTES of stack are enough. */
uint64_t handover_admit(uint32_t *HANDOVER_RESTRICT record, size_t record_len, uint32_t place,
                        const uint8_t *HANDOVER_RESTRICT handler, size_t handler_len,
                        const uint8_t *HANDOVER_RESTRICT proof, size_t proof_len, uint32_t ticks,
                        uint64_t *HANDOVER_RESTRICT work, size_t work_len);

/* Releases the guest of a place: its slot is taken out, and the slots after it begin earlier by its length, so that all lie end to end
   again, in the same order and as long as before. The answer is 0 if it was released. If not, it is the fault as in an answer of
   handover_check, the first of 100; 101, if no slot has the place; and 102; as in handover_admit. After a fault all of the record is as
   it was. Otherwise every number past the slots is 0. It needs no files and no work words, and HANDOVER_STACK_BYTES of stack are
   enough. */
uint64_t handover_release(uint32_t *record, size_t record_len, uint32_t place);

/* Taking an answer of handover_check apart. The last three are for an answer of handover_canonical, handover_admit and
   handover_release too. */

/* Whether the pair was accepted. */
static inline bool handover_accepted(uint64_t answer) { return answer <= HANDOVER_MOST_STEPS; }

/* The step number of an accepted pair: the handler never makes more steps than this, and often makes fewer. */
static inline uint32_t handover_steps(uint64_t answer) { return (uint32_t)(answer & HANDOVER_MOST_STEPS); }

/* The number of the fault, one of enum handover_fault or handover_admit_fault; 0 for an accepted pair. */
static inline uint32_t handover_number(uint64_t answer) { return (uint32_t)(answer >> 33); }

/* Whether the place of the fault is a bit or a node. */
static inline enum handover_place_kind handover_kind(uint64_t answer)
{
    return (answer >> 32) % 2 == 1 ? HANDOVER_NODE : HANDOVER_BIT;
}

/* The place of the fault. */
static inline uint32_t handover_place(uint64_t answer) { return (uint32_t)(answer & UINT32_MAX); }

/* Taking an answer of handover_canonical apart. */

/* Whether the form was written. */
static inline bool handover_written(uint64_t answer) { return answer <= UINT32_MAX; }

/* The length of the form in bytes, if it was written. */
static inline size_t handover_length(uint64_t answer) { return (size_t)(answer & UINT32_MAX); }

/* Taking an answer of handover_compose apart. */

/* Whether both files were written. */
static inline bool handover_composed(uint64_t answer) { return answer >> 63 == 0; }

/* The step number of the result, if it was written. */
static inline uint32_t handover_composed_steps(uint64_t answer) { return (uint32_t)(answer & HANDOVER_MOST_STEPS); }

/* The length of the handler file in bytes, if it was written. */
static inline size_t handover_composed_handler(uint64_t answer) { return (size_t)(answer >> 32 & 0x7FFF); }

/* The length of the proof file in bytes, if it was written. */
static inline size_t handover_composed_proof(uint64_t answer) { return (size_t)(answer >> 47 & 0xFFFF); }

/* The pair that a refusal is about: 1 the first, 2 the second; 0 if it is neither, or both files were written. */
static inline uint32_t handover_composed_pair(uint64_t answer)
{
    return handover_composed(answer) ? 0 : (uint32_t)(answer >> 48 & 0x7FFF);
}

/* The fault of a refusal as in an answer of handover_check, for handover_number, handover_kind and handover_place; 0 if both files
   were written. */
static inline uint64_t handover_composed_fault(uint64_t answer)
{
    return handover_composed(answer) ? 0 : answer & ((UINT64_C(1) << 48) - 1);
}

/* The record of a frame: HANDOVER_RECORD_NUMBERS numbers. */

/* Makes the record of a frame of so many ticks without guests. */
static inline void handover_bare(uint32_t *record, uint32_t frame)
{
    for (size_t i = 0; i < HANDOVER_RECORD_NUMBERS; i++) {
        record[i] = 0;
    }
    record[0] = frame;
}

/* Whether an answer of handover_admit or handover_release says that it was done. */
static inline bool handover_admitted(uint64_t answer) { return answer == 0; }

/* How many slots there are. */
static inline uint32_t handover_slots(const uint32_t *record) { return record[1]; }

/* The place of slot i, counted from 0 in order of admission, with i below the count of slots. */
static inline uint32_t handover_slot_place(const uint32_t *record, uint32_t i) { return record[2 + 3 * (size_t)i]; }

/* The first tick of slot i. */
static inline uint32_t handover_slot_first(const uint32_t *record, uint32_t i) { return record[3 + 3 * (size_t)i]; }

/* The length of slot i in ticks. */
static inline uint32_t handover_slot_length(const uint32_t *record, uint32_t i) { return record[4 + 3 * (size_t)i]; }

/* Taking an answer of handover_root apart, where it is not 0. */

/* N, the number of states: the states are 0 to N - 1, with variable 0 most significant. */
static inline uint32_t handover_root_states(uint64_t root) { return (uint32_t)(root & 0xFF); }

/* The number of the set P: the states at which the handler may start. */
static inline uint32_t handover_root_precondition(uint64_t root) { return (uint32_t)(root >> 8 & 0xFF); }

/* The number of the relation R: the changes that others may make. */
static inline uint32_t handover_root_rely(uint64_t root) { return (uint32_t)(root >> 16 & 0xFF); }

/* The number of the relation G: the changes that the handler may make. */
static inline uint32_t handover_root_guarantee(uint64_t root) { return (uint32_t)(root >> 24 & 0xFF); }

/* The number of the relation Q: from which start the handler may end at which state. */
static inline uint32_t handover_root_postcondition(uint64_t root) { return (uint32_t)(root >> 32 & 0xFF); }

/* Taking an answer of handover_states apart. */

/* How many states are named: 0 to 3. */
static inline uint32_t handover_states_count(uint64_t states) { return (uint32_t)(states >> 24); }

/* The state named at position i, from 0, with i below the count: for 42 and 43, s and then s'; else s, then t, then u. Where i is
   not below the count, HANDOVER_MOST_STATES, which is no state. */
static inline uint32_t handover_states_at(uint64_t states, uint32_t i)
{
    return i < handover_states_count(states) ? (uint32_t)(states >> 8 * i & 0xFF) : HANDOVER_MOST_STATES;
}

/* Taking an answer of handover_view apart, for files of fewer than 2^32 bytes. */

/* The file whose bytes are shown. */
static inline enum handover_file handover_view_file(uint64_t view)
{
    return view >> 32 == 1 ? HANDOVER_PROOF_FILE : HANDOVER_HANDLER_FILE;
}

/* The index of the first byte shown; the length of the file if none is. */
static inline size_t handover_view_index(uint64_t view) { return (size_t)(view & UINT32_MAX); }

/* Where the tables are in the work words after acceptance. Sets and relations are numbered from 0, as in the proof file. */

/* The index of the word of a set: bit s, counted from the lowest, is 1 where state s is in the set. */
static inline size_t handover_set_word(uint32_t set) { return set; }

/* The index of the word of row `from` of a relation: bit t, counted from the lowest, is 1 where (from, t) is in the relation. */
static inline size_t handover_row_word(uint32_t relation, uint32_t from)
{
    return HANDOVER_MOST_SETS + (size_t)HANDOVER_MOST_STATES * relation + from;
}

/* Whether a set has the state, in the work words after acceptance. The set is one of the proof file's, the state is below N. */
static inline bool handover_in_set(const uint64_t *work, uint32_t set, uint32_t state)
{
    return (work[handover_set_word(set)] >> state & 1) == 1;
}

/* Whether a relation has the pair (from, to), in the work words after acceptance. Both states are below N. */
static inline bool handover_in_relation(const uint64_t *work, uint32_t relation, uint32_t from, uint32_t to)
{
    return (work[handover_row_word(relation, from)] >> to & 1) == 1;
}

#ifdef __cplusplus
}
#endif

#endif
