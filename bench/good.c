/* A pass as a good C program makes it, one that keeps its indexes between commands. Boards are bits in name
   order; claims that want the same (a type and a tag) share a queue, one list a priority, and the set of the
   boards that have it; the pass merges the heads of the queues in a heap and drops a queue that no free board
   fits. Of each claim that it serves it copies the rows that changed, the job with its text of 300 bytes and the
   board, each text in memory of its own, as they would be handed to a store. The indexes stand before the pass.
   claims.h says over what it goes, and how it is called. */
#include "claims.h"
#include <stdint.h>

enum { WORDS = BOARDS / 64, WANTS = 64, PRIORITIES = 101, BODY = 300, TEXTS = 6, NUMBERS = 6 };

/* What claims want, the boards that have it, and the claims: for each priority the first and the last. */
struct want {
    const char *type, *tag;
    uint64_t fitting[WORDS];
    int first[PRIORITIES], last[PRIORITIES], top;
};

struct row {
    char *texts[TEXTS];
    long numbers[NUMBERS];
};

static struct want wants[WANTS];
static int want_count, next_claim[MOST];
static uint64_t idle[WORDS];
static struct row rows[2 * BOARDS];
static char body[BODY + 1];

/* A heap of the wants that claims wait for, by their first claims. */
static struct { struct want *want; long key; } heap[WANTS];
static int open_wants;

static int has_tag(const struct board *board, const char *tag) {
    for (int i = 0; i < board->count; i++)
        if (!strcmp(board->tags[i], tag)) return 1;
    return 0;
}

static struct want *new_want(const struct claim *claim) {
    if (want_count == WANTS) exit(2);
    struct want *want = &wants[want_count++];
    memset(want, 0, sizeof *want);
    want->type = claim->type;
    want->tag = claim->tag;
    want->top = -1;
    for (int p = 0; p < PRIORITIES; p++) want->first[p] = -1;
    for (int j = 0; j < BOARDS; j++)
        if (!strcmp(boards[j].type, want->type) && has_tag(&boards[j], want->tag))
            want->fitting[j / 64] |= 1ull << j % 64;
    return want;
}

static struct want *want_of(const struct claim *claim) {
    for (int i = 0; i < want_count; i++)
        if (!strcmp(wants[i].type, claim->type) && !strcmp(wants[i].tag, claim->tag)) return &wants[i];
    return new_want(claim);
}

static void enqueue(int at) {
    struct want *want = want_of(&claims[at]);
    int p = claims[at].priority;
    next_claim[at] = -1;
    if (want->first[p] < 0)
        want->first[p] = at;
    else
        next_claim[want->last[p]] = at;
    want->last[p] = at;
    if (p > want->top) want->top = p;
}

static void free_rows(void) {
    for (int i = 0; i < 2 * BOARDS; i++)
        for (int j = 0; j < TEXTS; j++) free(rows[i].texts[j]);
    memset(rows, 0, sizeof rows);
}

static void prepare(int count) {
    free_rows();
    memset(body, 'x', BODY);
    memset(idle, 0, sizeof idle);
    want_count = 0;
    for (int j = 0; j < BOARDS; j++)
        if (!boards[j].held) idle[j / 64] |= 1ull << j % 64;
    for (int i = 0; i < count; i++) enqueue(i);
}

/* The first free board that fits, or -1. */
static int first_board(const struct want *want) {
    for (int k = 0; k < WORDS; k++) {
        uint64_t both = idle[k] & want->fitting[k];
        if (both) return k * 64 + __builtin_ctzll(both);
    }
    return -1;
}

/* The place of a want's first claim in the order of all: by priority, the highest first, then by number. */
static long key_of(const struct want *want) {
    return (100L - want->top) << 32 | claims[want->first[want->top]].number;
}

static void sift_up(struct want *want) {
    long key = key_of(want);
    int at = open_wants++;
    for (; at && heap[(at - 1) / 2].key > key; at = (at - 1) / 2) heap[at] = heap[(at - 1) / 2];
    heap[at].want = want;
    heap[at].key = key;
}

static void sift_down(struct want *want) {
    long key = key_of(want);
    int at = 0;
    for (int child; (child = 2 * at + 1) < open_wants; at = child) {
        if (child + 1 < open_wants && heap[child + 1].key < heap[child].key) child++;
        if (heap[child].key >= key) break;
        heap[at] = heap[child];
    }
    heap[at].want = want;
    heap[at].key = key;
}

static int take_first(struct want *want) {
    int claim = want->first[want->top];
    want->first[want->top] = next_claim[claim];
    while (want->top >= 0 && want->first[want->top] < 0) want->top--;
    return claim;
}

static char *copy(const char *text) {
    size_t length = strlen(text) + 1;
    char *made = malloc(length);
    if (!made) exit(3);
    return memcpy(made, text, length);
}

static void note_rows(struct row *row, const struct claim *claim, const struct board *board) {
    long number = claim->number;
    row[0] = (struct row){{copy("ann"), copy(claim->type), copy(claim->tag), copy(board->name), copy(body)},
                          {number, number, claim->priority, 2}};
    row[1] = (struct row){{copy(board->name), copy(board->type)}, {1, 1, number}};
    for (int i = 0; i < board->count; i++) row[1].texts[2 + i] = copy(board->tags[i]);
}

static void serve(struct want *want, int board, int served) {
    int claim = take_first(want);
    idle[board / 64] &= ~(1ull << board % 64);
    given[claim] = board;
    note_rows(&rows[2 * served], &claims[claim], &boards[board]);
}

static int pass(int count) {
    int served = 0;
    (void)count;
    open_wants = 0;
    for (int i = 0; i < want_count; i++)
        if (wants[i].top >= 0 && first_board(&wants[i]) >= 0) sift_up(&wants[i]);
    while (open_wants) {
        struct want *want = heap[0].want;
        int board = first_board(want);
        if (board >= 0) serve(want, board, served++);
        if (board >= 0 && want->top >= 0)
            sift_down(want);
        else if (--open_wants)
            sift_down(heap[open_wants].want);
    }
    return served;
}
