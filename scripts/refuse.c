/*
 * A library that is loaded into a program and lets one operation fail. It prints a message when this happens. A variable of
 * the environment selects the operation by its number, counted from 0:
 *
 * REFUSE     a growth of memory
 * FAIL       a call on a file, on a folder or on the input
 * BREAK      a send or receive on a connection
 * INTERRUPT  a send or receive on a connection, which a signal interrupts
 * SPOIL      a write to the output
 * SOCKET     a call that makes, binds, accepts, watches or awaits sockets, or sets an option of one
 *
 * SHORT is the most bytes that a call moves. LATE is the number of writes to the output before the counting begins.
 */
#define NEXT ((void *)-1L)
#define EINTR 4
#define EIO 5
#define ECONNRESET 104
#define OUTPUT 1
#define ERRORS 2

typedef unsigned long size;

extern void *dlsym(void *, const char *);
extern char *getenv(const char *);
extern int *__errno_location(void);
long write(int, const void *, size);

struct variable {
    const char *name, *message;
    long left;
    int is_known;
};

static struct variable growth = {"REFUSE", "growth refused\n", 0, 0};
static struct variable call = {"FAIL", "call failed\n", 0, 0};
static struct variable traffic = {"BREAK", "connection broken\n", 0, 0};
static struct variable signals = {"INTERRUPT", "call interrupted\n", 0, 0};
static struct variable output = {"SPOIL", "output spoiled\n", 0, 0};
static struct variable most = {"SHORT", "", 0, 0};
static struct variable early = {"LATE", "", 0, 0};

/* The remaining count of a variable, or -1 if the variable is not set. */
static long left(struct variable *variable) {
    const char *word;
    if (!variable->is_known) {
        variable->is_known = 1;
        word = getenv(variable->name);
        for (variable->left = word ? 0 : -1; word && *word; word++)
            variable->left = 10 * variable->left + (*word - '0');
    }
    return variable->left;
}

/* Counts an operation. If it is the selected one, prints the message and returns 1. */
static int has_come(struct variable *variable) {
    const char *end = variable->message;
    if (left(variable) < 0 || left(&early) > 0 || variable->left-- > 0)
        return 0;
    while (*end)
        end++;
    write(ERRORS, variable->message, end - variable->message);
    return 1;
}

static int fails(struct variable *variable, int error) {
    if (!has_come(variable))
        return 0;
    *__errno_location() = error;
    return 1;
}

/* Whether a send or receive on a connection fails. */
static int breaks(void) {
    return fails(&traffic, ECONNRESET) || fails(&signals, EINTR);
}

/* Whether a write to a descriptor fails. A write before the counting begins does not fail. */
static int spoils(int fd) {
    if (fd != OUTPUT)
        return 0;
    if (left(&early) > 0) {
        early.left--;
        return 0;
    }
    return fails(&output, EIO);
}

static size at_most(size wanted) {
    return left(&most) > 0 && wanted > (size)most.left ? (size)most.left : wanted;
}

/* Replaces a function of the C library by one that executes `first` before it. */
#define BEFORE(type, name, parameters, arguments, first) \
    type name parameters { \
        static type(*next) parameters; \
        if (!next) \
            next = dlsym(NEXT, #name); \
        first; \
        return next arguments; \
    }

BEFORE(void *, malloc, (size n), (n), if (has_come(&growth)) return 0)
BEFORE(void *, realloc, (void *old, size n), (old, n), if (has_come(&growth)) return 0)
BEFORE(int, open, (const char *path, int flags, unsigned mode), (path, flags, mode), if (fails(&call, EIO)) return -1)
BEFORE(int, openat, (int dir, const char *path, int flags, unsigned mode), (dir, path, flags, mode),
       if (fails(&call, EIO)) return -1)
BEFORE(int, statx, (int dir, const char *path, int flags, unsigned mask, void *found), (dir, path, flags, mask, found),
       if (fails(&call, EIO)) return -1)
BEFORE(long, lseek, (int fd, long at, int from), (fd, at, from), if (fails(&call, EIO)) return -1)
BEFORE(long, getdents64, (int fd, void *into, size n), (fd, into, n), if (fails(&call, EIO)) return -1)
BEFORE(long, read, (int fd, void *into, size n), (fd, into, at_most(n)), if (fails(&call, EIO)) return -1)
BEFORE(long, recv, (int fd, void *into, size n, int flags), (fd, into, at_most(n), flags), if (breaks()) return -1)
BEFORE(long, send, (int fd, const void *from, size n, int flags), (fd, from, at_most(n), flags), if (breaks()) return -1)
BEFORE(long, write, (int fd, const void *from, size n), (fd, from, fd == OUTPUT ? at_most(n) : n),
       if (spoils(fd)) return -1)

/* A send of several pieces. It moves at most the first SHORT bytes. */
struct piece {
    void *from;
    size n;
};

struct message {
    void *name;
    unsigned name_size;
    struct piece *pieces;
    size count;
    void *control;
    size control_size;
    int flags;
};

long sendmsg(int fd, const struct message *message, int flags) {
    static long (*next)(int, const struct message *, int);
    struct message first = *message;
    struct piece pieces[8];
    size k, rest = left(&most) > 0 ? (size)most.left : ~0UL;
    if (!next)
        next = dlsym(NEXT, "sendmsg");
    if (breaks())
        return -1;
    for (k = 0; k < first.count && k < 8 && rest > 0; k++) {
        pieces[k] = first.pieces[k];
        if (pieces[k].n > rest)
            pieces[k].n = rest;
        rest -= pieces[k].n;
    }
    first.pieces = pieces;
    first.count = k;
    return next(fd, &first, flags);
}

static struct variable sockets = {"SOCKET", "socket call failed\n", 0, 0};

#define ON_SOCKETS(name, parameters, arguments) \
    BEFORE(int, name, parameters, arguments, if (fails(&sockets, EIO)) return -1)

ON_SOCKETS(socket, (int domain, int kind, int protocol), (domain, kind, protocol))
ON_SOCKETS(bind, (int fd, const void *address, unsigned n), (fd, address, n))
ON_SOCKETS(listen, (int fd, int n), (fd, n))
ON_SOCKETS(getsockname, (int fd, void *address, unsigned *n), (fd, address, n))
ON_SOCKETS(setsockopt, (int fd, int level, int name, const void *value, unsigned n), (fd, level, name, value, n))
ON_SOCKETS(accept4, (int fd, void *address, unsigned *n, int flags), (fd, address, n, flags))
ON_SOCKETS(shutdown, (int fd, int how), (fd, how))
ON_SOCKETS(epoll_create1, (int flags), (flags))
ON_SOCKETS(epoll_ctl, (int fd, int what, int of, void *event), (fd, what, of, event))
ON_SOCKETS(epoll_wait, (int fd, void *events, int n, int timeout), (fd, events, n, timeout))
