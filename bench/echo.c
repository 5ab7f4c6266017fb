/* The least server: takes MAX connections on 127.0.0.1 in turn, reads once, writes the same bytes,
   closes. What a socket costs without a desk.

   usage: echo PORT MAX */
#include <arpa/inet.h>
#include <netinet/in.h>
#include <stdio.h>
#include <stdlib.h>
#include <sys/socket.h>
#include <unistd.h>

int main(int words, char **word) {
    if (words != 3) {
        fprintf(stderr, "usage: echo PORT MAX\n");
        return 2;
    }
    int listener = socket(AF_INET, SOCK_STREAM, 0), on = 1;
    setsockopt(listener, SOL_SOCKET, SO_REUSEADDR, &on, sizeof on);
    struct sockaddr_in at = {.sin_family = AF_INET, .sin_port = htons(atoi(word[1]))};
    at.sin_addr.s_addr = htonl(INADDR_LOOPBACK);
    if (bind(listener, (struct sockaddr *)&at, sizeof at) || listen(listener, 128)) {
        perror("echo");
        return 1;
    }
    printf("listening %s\n", word[1]);
    fflush(stdout);
    for (long i = atol(word[2]); i > 0; i--) {
        static char bytes[8192];
        int stream = accept(listener, 0, 0);
        if (stream < 0) continue;
        ssize_t length = read(stream, bytes, sizeof bytes);
        if (length > 0 && write(stream, bytes, length) != length) perror("echo: write");
        close(stream);
    }
    return 0;
}
