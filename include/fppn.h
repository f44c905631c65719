/*
 * Cierniwoj: fixed priority process networks, for C.
 *
 * Every function takes any bytes, tables and numbers at all, and returns. Each answer begins with the number of the reply and the place that it
 * speaks of; 0 at 0 is "done". A refused call returns zeros beside reply and place, and changes none of the lent memory. A call that is done changes
 * no lent memory beyond what it fills. No function keeps a pointer, allocates, or uses anything but its arguments: calls may run at the same time.
 *
 * A pointer with its length has to lead to that many elements; with length 0 it is not read, but must not be null: give any aligned address.
 * Two pieces of memory lent to one call must not overlap.
 *
 *   reply                                                                   place
 *    0    done                                                              0
 *    1    the file ends in or before a number                               that number
 *    2    malformed number                                                  that number
 *    3    version not 1                                                     0
 *    4    field or count beyond its range                                   that number; 0 for processors (1 to 4) and frames (1 to 100)
 *    5    pair out of range, of one process, repeated; pairs form a cycle   pair; byte after the pairs
 *    6    channel end out of range, both equal, or without a pair           channel
 *    7    unknown action, operand out of range, not that channel's end      action
 *    8    bytes left over                                                   first of them
 *    9    frame above 2000 ticks or more than 128 jobs                      byte after the process records
 *   10    lent memory is shorter than what the call reads or fills          0
 *   11    a plan's job is on no processor                                   job
 *   12    it starts before its release                                      job
 *   13    it ends after its deadline                                        job
 *   14    it overlaps a lower-numbered job on its processor                 job
 *   15    it starts before a job ends that precedes it                      job
 *   16    sample with present above 1, or a value without present           sample
 *   17    turn of no processor                                              turn
 *   18    duration above the job's budget                                   job
 *   19    the planner's rule misses a deadline                              first such job placed
 *
 * Places in a file are byte offsets. The file's format is in the README.
 */
#ifndef FPPN_H
#define FPPN_H

#include <stddef.h>
#include <stdint.h>

#ifdef __cplusplus
extern "C" {
#endif

/* Ticks. */
typedef struct {
    uint32_t period;   /* 1 to 1000 */
    uint32_t burst;    /* jobs released at once, 1 to 4 */
    uint32_t deadline; /* after the release, 1 to period */
    uint32_t budget;   /* 1 to deadline */
} fppn_process;

typedef struct {
    uint32_t higher;
    uint32_t lower;
} fppn_pair;

typedef struct {
    uint32_t kind; /* 0 queue, 1 board */
    uint32_t writer;
    uint32_t reader;
    uint32_t capacity; /* 1 to 8; a board: 1 */
} fppn_channel;

/* Zero past the counts. Action k of process p is the four numbers from 96 * p + 4 * k on. */
typedef struct {
    uint32_t process_count;
    fppn_process processes[12];
    uint32_t pair_count;
    fppn_pair pairs[66];
    uint32_t channel_count;
    fppn_channel channels[16];
    uint32_t action_counts[12];
    uint32_t actions[1152];
} fppn_network;

typedef struct {
    uint32_t reply;
    size_t place;
    fppn_network network;
} fppn_loaded;

typedef struct {
    uint32_t reply;
    size_t place;
    size_t length; /* bytes written */
} fppn_written;

/* Jobs in their sequence, zero past the count. */
typedef struct {
    uint32_t reply;
    size_t place;
    uint32_t jobs;  /* at most 128 */
    uint32_t frame; /* ticks, at most 2000 */
    uint32_t edges;
    uint32_t process[128];
    uint32_t release[128];
    uint32_t deadline[128]; /* release plus the deadline of its process */
    uint32_t budget[128];
    uint64_t rows[256]; /* an edge leads from job i to job k: bit k % 64 of word 2 * i + k / 64 */
} fppn_graph_result;

typedef struct {
    uint32_t held;      /* how many values */
    uint32_t values[8]; /* oldest first, zeros after them */
    uint32_t loss;      /* writes that met a full queue; 0 for a board */
} fppn_held;

/* Variable a of process p stands at 8 * p + a. */
typedef struct {
    uint32_t reply;
    size_t place;
    uint32_t variables[96];
    fppn_held channels[16];
} fppn_ran;

typedef struct {
    uint32_t reply;
    size_t place;
    size_t frames;  /* finished */
    size_t jobs;    /* finished in the present frame; 0 after the last frame */
    size_t working; /* turns that worked, and that waited */
    size_t waiting;
    uint32_t variables[96];
    fppn_held channels[16];
} fppn_turned;

typedef struct {
    uint32_t reply;
    size_t place;
    size_t length; /* bytes of text */
} fppn_listed;

typedef struct {
    uint32_t reply;
    size_t place;
} fppn_answer;

/* Reads a network file. Replies 0 to 9. */
fppn_loaded fppn_read(const uint8_t *file, size_t file_length);

/* Writes the file of a network to the front of `out`; the longest has 2600 bytes. It looks at nothing past the counts.
   Replies 0, 4 to 7, 9 and 10: what the reader would give on that file, then 10. */
fppn_written fppn_write(fppn_network network, uint8_t *out, size_t out_length);

/* The jobs of a frame in sequence, and the precedence graph: the edges that stay in the transitive reduction. Replies 0 to 9. */
fppn_graph_result fppn_graph(const uint8_t *file, size_t file_length);

/* The zero-delay run: the jobs one after another in sequence, for 1 to 100 frames. A sample is two numbers, present (0 or 1) and value (0 where it
   is not present). Job j of frame f, of J jobs in a frame, has sample f * J + j of `input`, and outputs sample f * J + j of `output`; both have
   2 * J * frames numbers, and what lies beyond is neither read nor changed. Replies 0 to 10 and 16. */
fppn_ran fppn_zero_delay(const uint8_t *file, size_t file_length, uint32_t frames, const uint32_t *input, size_t input_length, uint32_t *output,
                         size_t output_length);

/* Plans a frame for 1 to 4 processors. A plan has two numbers for each of the J jobs, processor and start; they go to the front of `out`. Among the jobs
   whose predecessors are placed the planner takes that of least deadline, then of least number, and puts it where it starts earliest, then on the
   smallest processor. Replies 0 to 10 and 19; 19 does not say that there is no plan. */
fppn_answer fppn_plan(const uint8_t *file, size_t file_length, uint32_t processors, uint32_t *out, size_t out_length);

/* Checks a plan, whoever made it: the least faulty job, and its first fault. Numbers beyond 2 * J are not read. Replies 0 to 15. */
fppn_answer fppn_check(const uint8_t *file, size_t file_length, uint32_t processors, const uint32_t *plan, size_t plan_length);

/* The turn run: the jobs of a plan on 1 to 4 processors, for 1 to 100 frames. A turn is the number of a processor. With no job under way it starts its
   next job in planned order if all that precede it have finished; with one under way it does one action; else it waits. Samples as in the zero-delay run;
   a job that has not finished leaves 0, 0. Whatever the plan and the turns, what a job leaves is what it leaves in fppn_zero_delay; when all frames have
   finished, so are all output words, variables and channels. Replies 0 to 17. */
fppn_turned fppn_turns(const uint8_t *file, size_t file_length, uint32_t processors, uint32_t frames, const uint32_t *plan, size_t plan_length,
                       const uint32_t *input, size_t input_length, const uint32_t *turns, size_t turns_length, uint32_t *output,
                       size_t output_length);

/* The timed run of one frame on a plan: `durations` has a number for each job, 0 to its budget; `out` gets two for each, start and end. A job starts at
   the latest of its release, the ends of the jobs that precede it, and the end of the job before it on its processor. Replies 0 to 15 and 18. */
fppn_answer fppn_timed(const uint8_t *file, size_t file_length, uint32_t processors, const uint32_t *plan, size_t plan_length,
                       const uint32_t *durations, size_t durations_length, uint32_t *out, size_t out_length);

/* The listing of a network, planned for two processors, to the front of `out`: a line `jobs J frame H edges E`, and then a line for each job: job, process,
   release, deadline, budget, processor and start. The numbers are plain decimals with single spaces between them, and a newline ends each line. No zero
   byte comes after the text. 3744 bytes hold every listing. Replies 0 to 10 and 19; a file that the planner refuses gives 19 whatever the length of `out`. */
fppn_listed fppn_list(const uint8_t *file, size_t file_length, uint8_t *out, size_t out_length);

#ifdef __cplusplus
}
#endif

#endif
