/* A plain pass in C: the claims are sorted by priority and then by number, and each is given the first free
   board in name order that fits by type and tag, texts compared byte by byte. It has no index, no queue a type,
   no rows and no store. claims.h says over what it goes, and how it is called. */
#include "claims.h"

static struct claim *queue[MOST];

static int fits(const struct board *board, const struct claim *claim) {
    if (strcmp(board->type, claim->type)) return 0;
    for (int i = 0; i < board->count; i++)
        if (!strcmp(board->tags[i], claim->tag)) return 1;
    return 0;
}

static int before(const void *x, const void *y) {
    const struct claim *a = *(struct claim *const *)x, *b = *(struct claim *const *)y;
    if (a->priority != b->priority) return b->priority - a->priority;
    return (a->number > b->number) - (a->number < b->number);
}

static void prepare(int count) { (void)count; }

static int pass(int count) {
    int served = 0;
    for (int i = 0; i < count; i++) queue[i] = &claims[i];
    qsort(queue, count, sizeof *queue, before);
    for (int i = 0; i < count; i++)
        for (int j = 0; j < BOARDS; j++)
            if (!boards[j].held && fits(&boards[j], queue[i])) {
                boards[j].held = 1;
                given[queue[i] - claims] = j;
                served++;
                break;
            }
    return served;
}
