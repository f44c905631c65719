/* The whole journey of a network: it is read, planned for two processors, run one job after another and run by turns, and both runs are compared.
   journey FILE FRAMES [FRAME.JOB=VALUE ..]: these jobs get an input sample, all others get none. */
#include "fppn.h"

#include <stdio.h>
#include <stdlib.h>
#include <string.h>

enum { PROCESSORS = 2, JOBS = 128, FRAMES = 100, WORDS = 2 * JOBS * FRAMES, TURNS_OF_A_JOB = 25 };

static uint8_t file[4096];
static uint32_t plan[2 * JOBS];
static uint32_t input[WORDS];
static uint32_t output[WORDS];
static uint32_t output_by_turns[WORDS];
static uint32_t turns[PROCESSORS * TURNS_OF_A_JOB * JOBS * FRAMES];

static size_t read_file(const char *name) {
    FILE *f = fopen(name, "rb");
    if (!f) {
        perror(name);
        exit(1);
    }
    size_t length = fread(file, 1, sizeof file, f);
    fclose(f);
    return length;
}

static void need_done(const char *call, uint32_t reply, size_t place) {
    if (reply != 0) {
        fprintf(stderr, "%s: refused %u at %zu\n", call, reply, place);
        exit(1);
    }
}

/* Puts a sample FRAME.JOB=VALUE where it belongs. */
static void give(const char *sample, uint32_t jobs, uint32_t frames) {
    unsigned frame, job, value;
    if (sscanf(sample, "%u.%u=%u", &frame, &job, &value) != 3 || frame >= frames || frame >= FRAMES || job >= jobs) {
        fprintf(stderr, "not a sample: %s\n", sample);
        exit(1);
    }
    uint32_t at = 2 * (frame * jobs + job);
    input[at] = 1;
    input[at + 1] = value;
}

/* Each processor in its turn, over and over. In each round at least one turn works, and a job takes at most 25: so the run comes to its end. */
static size_t go_round(uint32_t jobs, uint32_t frames) {
    size_t count = (size_t)PROCESSORS * TURNS_OF_A_JOB * jobs * frames;
    for (size_t k = 0; k < count; k++)
        turns[k] = k % PROCESSORS;
    return count;
}

static void print_output(const fppn_graph_result *graph, uint32_t frames) {
    for (uint32_t f = 0; f < frames; f++)
        for (uint32_t j = 0; j < graph->jobs; j++) {
            const uint32_t *sample = &output[2 * (f * graph->jobs + j)];
            if (sample[0] == 1)
                printf("frame %u job %u process %u outputs %u\n", f, j, graph->process[j], sample[1]);
        }
}

static int same(const char *what, const void *one, const void *other, size_t size) {
    int equal = memcmp(one, other, size) == 0;
    printf("%s: %s\n", what, equal ? "the same" : "DIFFERENT");
    return equal;
}

int main(int argc, char **argv) {
    if (argc < 3) {
        fprintf(stderr, "usage: journey FILE FRAMES [FRAME.JOB=VALUE ..]\n");
        return 1;
    }
    size_t length = read_file(argv[1]);
    uint32_t frames = (uint32_t)strtoul(argv[2], NULL, 10);

    fppn_loaded loaded = fppn_read(file, length);
    need_done("read", loaded.reply, loaded.place);
    printf("%u processes, %u pairs, %u channels\n", loaded.network.process_count, loaded.network.pair_count, loaded.network.channel_count);
    fppn_graph_result graph = fppn_graph(file, length);
    need_done("graph", graph.reply, graph.place);
    printf("%u jobs in a frame of %u ticks, %u edges\n", graph.jobs, graph.frame, graph.edges);

    fppn_answer planned = fppn_plan(file, length, PROCESSORS, plan, 2 * JOBS);
    need_done("plan", planned.reply, planned.place);
    fppn_answer checked = fppn_check(file, length, PROCESSORS, plan, 2 * JOBS);
    need_done("check", checked.reply, checked.place);
    printf("planned for %d processors, and the plan is accepted\n", PROCESSORS);

    for (int k = 3; k < argc; k++)
        give(argv[k], graph.jobs, frames);
    fppn_ran ran = fppn_zero_delay(file, length, frames, input, WORDS, output, WORDS);
    need_done("zero-delay run", ran.reply, ran.place);
    print_output(&graph, frames);

    size_t count = go_round(graph.jobs, frames);
    fppn_turned turned =
        fppn_turns(file, length, PROCESSORS, frames, plan, 2 * JOBS, input, WORDS, turns, count, output_by_turns, WORDS);
    need_done("turn run", turned.reply, turned.place);
    printf("by turns: %zu of %u frames finished, %zu turns worked\n", turned.frames, frames, turned.working);

    int outputs = same("outputs", output, output_by_turns, sizeof output);
    int variables = same("variables", ran.variables, turned.variables, sizeof ran.variables);
    int channels = same("channels", ran.channels, turned.channels, sizeof ran.channels);
    return outputs && variables && channels && turned.frames == frames ? 0 : 1;
}
