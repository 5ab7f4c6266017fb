/* Preloaded into a program: the system has no room for what would tell which sockets are ready. */
#define ENFILE 23

extern int *__errno_location(void);

int epoll_create1(int flags) {
    (void)flags;
    *__errno_location() = ENFILE;
    return -1;
}
