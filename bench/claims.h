/* The boards and claims that both passes in C are timed over, those of crates/farm_bench: 256 boards of four
   types in turn, each with the tag `hdmi`, and single jobs of one type each with one tag. A cell is a shape and a
   number of claims: `fit` (boards fit), `nofit` (each claim wants `jtag`, whose boards are in maintenance) or
   `busy` (no board is free). A program that includes this file gives `prepare`, what stands before a pass, and
   `pass`, which notes in `given` the place of each claim's board.

   usage: PROGRAM                        prints a line 'CELL NANOSECONDS' a cell, the least of seven passes
          PROGRAM answers SHAPE CLAIMS   prints a line 'JOB BOARD' for each claim that a pass serves
          PROGRAM pass SHAPE CLAIMS N    does N passes, 0 or 1, over the same farm, for callgrind */
#include <stdio.h>
#include <stdlib.h>
#include <string.h>
#include <time.h>

enum { BOARDS = 256, MOST = 100000, ROUNDS = 7, TAGS = 4, RARE = 4 };

struct board {
    char name[48], type[48], tags[TAGS][64];
    int count, held;
};

struct claim {
    char type[48], tag[64];
    int priority;
    long number;
};

static struct board boards[BOARDS];
static struct claim claims[MOST];
static int given[MOST]; /* a claim's board, or -1 */

static void prepare(int count);
static int pass(int count);

static double now(void) {
    struct timespec t;
    clock_gettime(CLOCK_MONOTONIC, &t);
    return t.tv_sec * 1e9 + t.tv_nsec;
}

static void add_tag(struct board *board, const char *tag) { strcpy(board->tags[board->count++], tag); }

static void fill_boards(const char *shape) {
    char text[64];
    memset(boards, 0, sizeof boards);
    for (int i = 0; i < BOARDS; i++) {
        struct board *board = &boards[i];
        int is_rare = i >= BOARDS - RARE;
        sprintf(board->name, "board-%03d", i);
        sprintf(board->type, "beaglebone-black-%d", i % 4);
        add_tag(board, "hdmi");
        if (is_rare) add_tag(board, "jtag");
        sprintf(text, "name=board-%03d", i);
        add_tag(board, text);
        sprintf(text, "rack=%d", i % 8);
        add_tag(board, text);
        board->held = !strcmp(shape, "busy") || (is_rare && !strcmp(shape, "nofit"));
    }
}

static void fill(const char *shape, int count) {
    fill_boards(shape);
    for (int i = 0; i < count; i++) {
        struct claim *claim = &claims[i];
        memset(claim, 0, sizeof *claim);
        sprintf(claim->type, "beaglebone-black-%d", (i + 1) % 4);
        sprintf(claim->tag, "%s", strcmp(shape, "nofit") ? "hdmi" : "jtag");
        claim->number = i + 1;
        claim->priority = claim->number % 3 * 50;
        given[i] = -1;
    }
    prepare(count);
}

static void measure(const char *shape, int count) {
    double least = 0;
    for (int round = 0; round < ROUNDS; round++) {
        fill(shape, count);
        double start = now();
        int served = pass(count);
        double took = now() - start;
        if (!round || took < least) least = took;
        if (served != (strcmp(shape, "fit") ? 0 : BOARDS)) {
            fprintf(stderr, "%s %d: %d served\n", shape, count, served);
            exit(1);
        }
    }
    printf("%s-%d %.0f\n", shape, count, least);
}

static void measure_all(void) {
    static const char *const shapes[] = {"fit", "nofit", "busy"};
    for (int i = 0; i < 3; i++) {
        measure(shapes[i], 1000);
        measure(shapes[i], MOST);
    }
}

static void answer(const char *shape, int count) {
    fill(shape, count);
    pass(count);
    for (int i = 0; i < count; i++)
        if (given[i] >= 0) printf("%ld %s\n", claims[i].number, boards[given[i]].name);
}

int main(int words, char **word) {
    int count = words > 3 ? atoi(word[3]) : 0;
    if (words == 1) {
        measure_all();
    } else if (words == 4 && count > 0 && count <= MOST && !strcmp(word[1], "answers")) {
        answer(word[2], count);
    } else if (words == 5 && count > 0 && count <= MOST && !strcmp(word[1], "pass")) {
        fill(word[2], count);
        if (atoi(word[4])) pass(count);
    } else {
        fprintf(stderr, "usage: %s [answers SHAPE CLAIMS | pass SHAPE CLAIMS 0|1]\n", word[0]);
        return 2;
    }
    return 0;
}
