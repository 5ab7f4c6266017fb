/* Asks a server on 127.0.0.1 a list of requests, one connection a request, one after another:
   connect, write, read to the end, close. The list stands on the standard input; an item is a line
   'NAME STATUS LENGTH' and then so many bytes, which are the request. An answer that doesn't begin
   with 'HTTP/1.1 STATUS ' ends it with status 1; with the word `echo` the answer has to be the
   request. Prints for each name, in the order of the list, a line

       NAME NANOSECONDS

   the median of its requests. Requests with the name `-` are made and not timed.

   usage: client PORT [echo] < LIST */
#include <arpa/inet.h>
#include <netinet/in.h>
#include <stdio.h>
#include <stdlib.h>
#include <string.h>
#include <sys/socket.h>
#include <time.h>
#include <unistd.h>

enum { MOST_NAMES = 32, MOST_TIMES = 1 << 14 };

struct series { char name[32]; int n; double took[MOST_TIMES]; };

static struct series all[MOST_NAMES];
static char asked[8192], answer[1 << 25];

static double now(void) {
    struct timespec t;
    clock_gettime(CLOCK_MONOTONIC, &t);
    return t.tv_sec * 1e9 + t.tv_nsec;
}

static void die(const char *what) {
    perror(what);
    exit(1);
}

/* The length of the answer. */
static size_t ask(int port, size_t length) {
    struct sockaddr_in at = {.sin_family = AF_INET, .sin_port = htons(port)};
    at.sin_addr.s_addr = htonl(INADDR_LOOPBACK);
    int stream = socket(AF_INET, SOCK_STREAM, 0);
    if (stream < 0 || connect(stream, (struct sockaddr *)&at, sizeof at)) die("client: connect");
    if (write(stream, asked, length) != (ssize_t)length) die("client: write");
    size_t got = 0;
    while (got < sizeof answer) {
        ssize_t more = read(stream, answer + got, sizeof answer - got);
        if (more < 0) die("client: read");
        if (more == 0) break;
        got += more;
    }
    close(stream);
    return got;
}

/* The times of a name, the first unused ones where it is new. */
static struct series *series_of(const char *name) {
    for (struct series *it = all; it < all + MOST_NAMES; it++) {
        if (!it->name[0]) strcpy(it->name, name);
        if (!strcmp(it->name, name)) return it;
    }
    fprintf(stderr, "client: too many names\n");
    exit(1);
}

static void take(const char *name, double nanos) {
    if (!strcmp(name, "-")) return;
    struct series *it = series_of(name);
    if (it->n < MOST_TIMES) it->took[it->n++] = nanos;
}

/* Ends the client where the answer isn't the one that is wanted. */
static void judge(const char *name, int status, size_t length, size_t got, int echoes) {
    char wanted[32];
    size_t head = snprintf(wanted, sizeof wanted, "HTTP/1.1 %d ", status);
    if (echoes ? got == length && !memcmp(answer, asked, got) : got >= head && !memcmp(answer, wanted, head)) return;
    fprintf(stderr, "client: %s: %.*s: answered %.*s\n", name, (int)(length < 60 ? length : 60), asked, (int)(got < 200 ? got : 200), answer);
    exit(1);
}

static int by_size(const void *a, const void *b) {
    double x = *(const double *)a, y = *(const double *)b;
    return (x > y) - (x < y);
}

int main(int words, char **word) {
    if (words != 2 && (words != 3 || strcmp(word[2], "echo"))) {
        fprintf(stderr, "usage: client PORT [echo] < LIST\n");
        return 2;
    }
    char name[32];
    int status;
    size_t length;
    while (scanf("%31s %d %zu", name, &status, &length) == 3 && getchar() == '\n') {
        if (length > sizeof asked || fread(asked, 1, length, stdin) != length) die("client: the list");
        double start = now();
        size_t got = ask(atoi(word[1]), length);
        take(name, now() - start);
        judge(name, status, length, got, words == 3);
    }
    for (struct series *it = all; it < all + MOST_NAMES && it->name[0]; it++) {
        qsort(it->took, it->n, sizeof *it->took, by_size);
        printf("%s %.0f\n", it->name, it->took[it->n / 2]);
    }
    return 0;
}
