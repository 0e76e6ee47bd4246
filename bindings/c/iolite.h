/*
 * iolite.h: the I/O system whose domains share buffers by reference, from C. Made by bindings/c/make_header: do not edit.
 *
 * Nothing checks what a caller passes. The caller sees to this:
 *  - An iol_system is {0} until iol_system_new or iol_system_over returns 0. It is never copied, and it is freed once.
 *  - Calls on a system come one at a time, and none from a signal handler. Another thread may call it after a lock, or the start
 *    or the end of a thread, that orders its calls after those before.
 *  - A pointer with a count points to that many items. It may be null where the count is 0.
 *  - Memory that a call writes (`out`, `room`, `reply`) overlaps nothing else that the call gets.
 *  - Bytes that iol_parts borrows are only read, and no longer than docs/BINDINGS.md allows.
 */
#ifndef IOLITE_H
#define IOLITE_H
#include <stddef.h>
#include <stdint.h>
#include <string.h>
#ifdef __cplusplus
extern "C" {
#endif

#define IOLITE_VERSION "1.0.0"

/* A system, or none where `at` is null. */
typedef struct iol_system {
    void *at;
} iol_system;

/* The kinds of events. A number is never used again for another kind. */
typedef enum iol_kind {
    IOL_DOMAIN_NEW = 0,                  /* replies the new domain */
    IOL_EXIT = 1,
    IOL_POOL_CREATE = 2,                 /* reads from: chunks, names: domains; replies the new pool */
    IOL_POOL_CLOSE = 3,                  /* reads id: pool */
    IOL_POOL_ADMIT = 4,                  /* reads id: pool, to: domain */
    IOL_SET_POOL = 5,                    /* reads id: pool */
    IOL_AGG_MAKE = 6,                    /* reads bytes: data; replies the new aggregate */
    IOL_AGG_DUP = 7,                     /* reads agg; replies a second aggregate of the same bytes */
    IOL_AGG_CUT = 8,                     /* reads agg, from, until: to; replies an aggregate of the bytes from `from` up to `to` */
    IOL_AGG_SPLIT = 9,                   /* reads agg, from: at; replies the first part, the second part */
    IOL_AGG_JOIN = 10,                   /* reads agg: first, with: second; replies the joined aggregate */
    IOL_AGG_REPLACE = 11,                /* reads agg, from, until: to, with; replies the new aggregate */
    IOL_AGG_DROP = 12,                   /* reads agg */
    IOL_AGG_GIVE = 13,                   /* reads agg, to; replies the receiver's aggregate */
    IOL_SHOW = 14,                       /* reads agg, out; replies the number of bytes */
    IOL_FILE_NEW = 15,                   /* reads bytes: name, id: pool; replies the new file */
    IOL_OPEN_FILE = 16,                  /* reads bytes: name, from: mode; replies the new descriptor */
    IOL_PIPE = 17,                       /* replies its read end, its write end */
    IOL_GIVE_FD = 18,                    /* reads id: fd, to; replies the receiver's descriptor */
    IOL_CLOSE = 19,                      /* reads id: fd */
    IOL_SEEK = 20,                       /* reads id: fd, from: at */
    IOL_LENGTH = 21,                     /* reads id: fd; replies the length of the file in bytes */
    IOL_READ = 22,                       /* reads id: fd, from: count; replies an aggregate of at most `count` bytes */
    IOL_WRITE = 23,                      /* reads id: fd, agg; replies the number of bytes taken */
    IOL_FSYNC = 24,                      /* reads id: fd */
    IOL_READ_COPY = 25,                  /* reads id: fd, from: count, out; replies the number of bytes */
    IOL_WRITE_COPY = 26,                 /* reads id: fd, bytes: data; replies the number of bytes taken */
    IOL_ACCEPT = 27,                     /* replies the connection's descriptor */
    IOL_CONN_NEW = 100,                  /* reads id: pool; replies the new connection */
    IOL_ARRIVE = 101,                    /* reads id: conn, bytes: data; replies the number of bytes taken */
    IOL_PEER_CLOSED = 102,               /* reads id: conn, from: how */
    IOL_TRANSMIT = 103,                  /* reads id: conn, from: max, out; replies the number of bytes, their Internet checksum */
    IOL_FLUSH = 104,
    IOL_DROP_CLEAN = 105
} iol_kind;

/* Why an event was not carried out. What any domain can read is unchanged. */
typedef enum iol_refusal {
    IOL_OK = 0,                          /* the event was carried out */
    IOL_NO_DOMAIN = 1,                   /* the caller, the receiver or a listed domain is not live */
    IOL_BAD_FD = 2,                      /* no such descriptor or connection */
    IOL_BAD_AGG = 3,                     /* no such aggregate */
    IOL_NO_POOL = 4,                     /* no such pool, or no default pool */
    IOL_NO_FILE = 5,                     /* no file has this name */
    IOL_WRONG_MODE = 6,                  /* not open for this, or the name is taken */
    IOL_BAD_RANGE = 7,                   /* a range or a number outside its limits */
    IOL_TOO_LONG = 8,                    /* over 2^24 bytes */
    IOL_TOO_MANY = 9,                    /* a table is full */
    IOL_DENIED = 10,                     /* pool `about` does not name the domain */
    IOL_POOL_CLOSED = 11,                /* pool `about` is closed */
    IOL_POOL_BUSY = 12,                  /* a file or a connection names pool `about` */
    IOL_BROKEN_PIPE = 13,                /* no reader, or the peer sends no more */
    IOL_WOULD_BLOCK = 14,                /* the queue is full or empty, or none waits */
    IOL_NO_ROOM = 15,                    /* too few free pages or chunks for pool `about` */
    IOL_FAULT = 16,                      /* the store failed at file `about` */
    IOL_MEMORY = 17,                     /* out of memory */
    IOL_BAD_EVENT = 100,                 /* no event: nothing was done */
    IOL_SMALL_ROOM = 101                 /* `out` is too small: nothing was done */
} iol_refusal;

/* What a file is opened for. */
typedef enum iol_mode {
    IOL_MODE_READ = 0,
    IOL_MODE_WRITE = 1,
    IOL_MODE_BOTH = 2
} iol_mode;

/* How a peer closes: it sends no more, or it is gone. */
typedef enum iol_how {
    IOL_PEER_DONE = 0,
    IOL_PEER_GONE = 1
} iol_how;

/* An event. A kind ignores the fields that it does not read. */
typedef struct iol_event {
    uint32_t kind;
    uint32_t by;
    uint64_t agg;
    uint64_t with;
    uint32_t id;
    uint32_t to;
    uint32_t from;
    uint32_t until;
} iol_event;

/* A reply: 0 or why not, the pool or file that a refusal names, and two numbers. */
typedef struct iol_reply {
    uint32_t refusal;
    uint32_t about;
    uint64_t number;
    uint64_t second;
} iol_reply;

/* Bytes of a page, borrowed. */
typedef struct iol_part {
    const uint8_t *at;
    size_t len;
} iol_part;

/* The pages of a pool. */
typedef struct iol_pool {
    uint32_t pool;
    uint32_t pages;
    uint32_t free;
    uint32_t retired;
} iol_pool;

/* A report: 0 or IOL_MEMORY, and counts. */
typedef struct iol_report_counts {
    uint32_t refusal;
    uint32_t buffers;
    uint64_t extents;
    uint64_t dirty;
    uint64_t pools;
} iol_report_counts;

typedef char iol_event_has_40_bytes[sizeof(iol_event) == 40 ? 1 : -1];
typedef char iol_reply_has_24_bytes[sizeof(iol_reply) == 24 ? 1 : -1];
typedef char iol_part_has_16_bytes[sizeof(iol_part) == 16 ? 1 : -1];
typedef char iol_pool_has_16_bytes[sizeof(iol_pool) == 16 ? 1 : -1];
typedef char iol_report_counts_has_32_bytes[sizeof(iol_report_counts) == 32 ? 1 : -1];

/* Makes a system over an empty store in memory, of 1 to 256 chunks of 64 KiB whose pages hold `generations`
 * buffers at most, one after another, and that remembers 1 to 65,536 sums. Returns 0, or a refusal:
 * IOL_BAD_RANGE or IOL_MEMORY. `out` has to be {0}. */
uint32_t iol_system_new(uint32_t chunks, uint32_t generations, uint32_t sums, iol_system *out);

/* The same over open descriptors: file N of the store is descriptor fds[N - 1], of lens[N - 1] bytes. The
 * caller keeps them open and closes them after iol_system_free. */
uint32_t iol_system_over(uint32_t chunks, uint32_t generations, uint32_t sums, const int32_t *fds, size_t fds_count,
    const uint32_t *lens, size_t lens_count, iol_system *out);

/* Frees the system, which is then {0}. What is dirty is not written back. */
void iol_system_free(iol_system *system);

/* Carries out one event, and replies. `out` gets the bytes of the reply. The functions below, one for each kind, are
 * shorter to write. */
void iol_step(iol_system *system, const iol_event *event, const uint8_t *bytes, size_t bytes_count, const
    uint32_t *names, size_t names_count, uint8_t *out, size_t out_count, iol_reply *reply);

/* Borrows the bytes of an aggregate in place: the address and the length of each of its parts, from part `skip` on, as
 * many as `room` has. Replies the number of its parts, and of its bytes. Copies nothing. */
void iol_parts(iol_system *system, uint32_t by, uint64_t agg, size_t skip, iol_part *room, size_t room_count,
    iol_reply *reply);

/* Counts the live buffers, the extents of files and the dirty ones among them, and the pages of each pool that has
 * chunks, as many pools as `room` has. */
void iol_report(iol_system *system, iol_pool *room, size_t room_count, iol_report_counts *report);

/* Reads once from a descriptor, at most `max` bytes and a page, which arrive on a connection. Replies how many,
 * and how the read ended: 0, 1 at the end of the input, 2 where it failed (see errno). */
void iol_arrive_from(iol_system *system, uint32_t conn, int32_t fd, uint32_t max, iol_reply *reply);

/* Writes the first bytes to be sent on a connection to a descriptor, at most `max`. Replies how many, and 1 where a
 * write failed or took nothing, else 0. */
void iol_drain_to(iol_system *system, uint32_t conn, int32_t fd, uint32_t max, iol_reply *reply);

/* The name of a refusal: the part of its constant behind IOL_, as a type's name. */
static inline const char *iol_refusal_name(uint32_t refusal)
{
    switch (refusal) {
    case IOL_OK:
        return "Ok";
    case IOL_NO_DOMAIN:
        return "NoDomain";
    case IOL_BAD_FD:
        return "BadFd";
    case IOL_BAD_AGG:
        return "BadAgg";
    case IOL_NO_POOL:
        return "NoPool";
    case IOL_NO_FILE:
        return "NoFile";
    case IOL_WRONG_MODE:
        return "WrongMode";
    case IOL_BAD_RANGE:
        return "BadRange";
    case IOL_TOO_LONG:
        return "TooLong";
    case IOL_TOO_MANY:
        return "TooMany";
    case IOL_DENIED:
        return "Denied";
    case IOL_POOL_CLOSED:
        return "PoolClosed";
    case IOL_POOL_BUSY:
        return "PoolBusy";
    case IOL_BROKEN_PIPE:
        return "BrokenPipe";
    case IOL_WOULD_BLOCK:
        return "WouldBlock";
    case IOL_NO_ROOM:
        return "NoRoom";
    case IOL_FAULT:
        return "Fault";
    case IOL_MEMORY:
        return "Memory";
    case IOL_BAD_EVENT:
        return "BadEvent";
    case IOL_SMALL_ROOM:
        return "SmallRoom";
    default:
        return "Unknown";
    }
}

/* Replies the new domain. */
static inline iol_reply iol_domain_new(iol_system *system, uint32_t by)
{
    iol_event event;
    iol_reply reply;
    memset(&event, 0, sizeof event);
    event.kind = IOL_DOMAIN_NEW;
    event.by = by;
    iol_step(system, &event, NULL, 0, NULL, 0, NULL, 0, &reply);
    return reply;
}

/* Ends the domain: its aggregates are dropped and its descriptors closed. */
static inline iol_reply iol_exit(iol_system *system, uint32_t by)
{
    iol_event event;
    iol_reply reply;
    memset(&event, 0, sizeof event);
    event.kind = IOL_EXIT;
    event.by = by;
    iol_step(system, &event, NULL, 0, NULL, 0, NULL, 0, &reply);
    return reply;
}

/* Replies the new pool. A pool of 1 to 256 chunks of 64 KiB that 1 to 16 live domains may read. */
static inline iol_reply iol_pool_create(iol_system *system, uint32_t by, uint32_t chunks, const uint32_t *domains,
    size_t domains_count)
{
    iol_event event;
    iol_reply reply;
    memset(&event, 0, sizeof event);
    event.kind = IOL_POOL_CREATE;
    event.by = by;
    event.from = chunks;
    iol_step(system, &event, NULL, 0, domains, domains_count, NULL, 0, &reply);
    return reply;
}

/* No byte is placed in the pool any more; those in it stay readable. */
static inline iol_reply iol_pool_close(iol_system *system, uint32_t by, uint32_t pool)
{
    iol_event event;
    iol_reply reply;
    memset(&event, 0, sizeof event);
    event.kind = IOL_POOL_CLOSE;
    event.by = by;
    event.id = pool;
    iol_step(system, &event, NULL, 0, NULL, 0, NULL, 0, &reply);
    return reply;
}

/* Adds a live domain to those that may read the pool. */
static inline iol_reply iol_pool_admit(iol_system *system, uint32_t by, uint32_t pool, uint32_t domain)
{
    iol_event event;
    iol_reply reply;
    memset(&event, 0, sizeof event);
    event.kind = IOL_POOL_ADMIT;
    event.by = by;
    event.id = pool;
    event.to = domain;
    iol_step(system, &event, NULL, 0, NULL, 0, NULL, 0, &reply);
    return reply;
}

/* Makes the pool the caller's default. */
static inline iol_reply iol_set_pool(iol_system *system, uint32_t by, uint32_t pool)
{
    iol_event event;
    iol_reply reply;
    memset(&event, 0, sizeof event);
    event.kind = IOL_SET_POOL;
    event.by = by;
    event.id = pool;
    iol_step(system, &event, NULL, 0, NULL, 0, NULL, 0, &reply);
    return reply;
}

/* Replies the new aggregate. At most 2^24 bytes, in the caller's default pool. */
static inline iol_reply iol_agg_make(iol_system *system, uint32_t by, const void *data, size_t data_count)
{
    iol_event event;
    iol_reply reply;
    memset(&event, 0, sizeof event);
    event.kind = IOL_AGG_MAKE;
    event.by = by;
    iol_step(system, &event, (const uint8_t *)data, data_count, NULL, 0, NULL, 0, &reply);
    return reply;
}

/* Replies a second aggregate of the same bytes. */
static inline iol_reply iol_agg_dup(iol_system *system, uint32_t by, uint64_t agg)
{
    iol_event event;
    iol_reply reply;
    memset(&event, 0, sizeof event);
    event.kind = IOL_AGG_DUP;
    event.by = by;
    event.agg = agg;
    iol_step(system, &event, NULL, 0, NULL, 0, NULL, 0, &reply);
    return reply;
}

/* Replies an aggregate of the bytes from `from` up to `to`. */
static inline iol_reply iol_agg_cut(iol_system *system, uint32_t by, uint64_t agg, uint32_t from, uint32_t to)
{
    iol_event event;
    iol_reply reply;
    memset(&event, 0, sizeof event);
    event.kind = IOL_AGG_CUT;
    event.by = by;
    event.agg = agg;
    event.from = from;
    event.until = to;
    iol_step(system, &event, NULL, 0, NULL, 0, NULL, 0, &reply);
    return reply;
}

/* Replies the first part and the second part. `agg` is given up. */
static inline iol_reply iol_agg_split(iol_system *system, uint32_t by, uint64_t agg, uint32_t at)
{
    iol_event event;
    iol_reply reply;
    memset(&event, 0, sizeof event);
    event.kind = IOL_AGG_SPLIT;
    event.by = by;
    event.agg = agg;
    event.from = at;
    iol_step(system, &event, NULL, 0, NULL, 0, NULL, 0, &reply);
    return reply;
}

/* Replies the joined aggregate. Both are given up. */
static inline iol_reply iol_agg_join(iol_system *system, uint32_t by, uint64_t first, uint64_t second)
{
    iol_event event;
    iol_reply reply;
    memset(&event, 0, sizeof event);
    event.kind = IOL_AGG_JOIN;
    event.by = by;
    event.agg = first;
    event.with = second;
    iol_step(system, &event, NULL, 0, NULL, 0, NULL, 0, &reply);
    return reply;
}

/* Replies the new aggregate. The bytes of `agg`, those from `from` up to `to` replaced by those of `with`. */
static inline iol_reply iol_agg_replace(iol_system *system, uint32_t by, uint64_t agg, uint32_t from, uint32_t to,
    uint64_t with)
{
    iol_event event;
    iol_reply reply;
    memset(&event, 0, sizeof event);
    event.kind = IOL_AGG_REPLACE;
    event.by = by;
    event.agg = agg;
    event.from = from;
    event.until = to;
    event.with = with;
    iol_step(system, &event, NULL, 0, NULL, 0, NULL, 0, &reply);
    return reply;
}

static inline iol_reply iol_agg_drop(iol_system *system, uint32_t by, uint64_t agg)
{
    iol_event event;
    iol_reply reply;
    memset(&event, 0, sizeof event);
    event.kind = IOL_AGG_DROP;
    event.by = by;
    event.agg = agg;
    iol_step(system, &event, NULL, 0, NULL, 0, NULL, 0, &reply);
    return reply;
}

/* Replies the receiver's aggregate. `agg` is given up. */
static inline iol_reply iol_agg_give(iol_system *system, uint32_t by, uint64_t agg, uint32_t to)
{
    iol_event event;
    iol_reply reply;
    memset(&event, 0, sizeof event);
    event.kind = IOL_AGG_GIVE;
    event.by = by;
    event.agg = agg;
    event.to = to;
    iol_step(system, &event, NULL, 0, NULL, 0, NULL, 0, &reply);
    return reply;
}

/* Replies the number of bytes. Copies the bytes to `out`, or none: IOL_SMALL_ROOM. */
static inline iol_reply iol_show(iol_system *system, uint32_t by, uint64_t agg, uint8_t *out, size_t out_count)
{
    iol_event event;
    iol_reply reply;
    memset(&event, 0, sizeof event);
    event.kind = IOL_SHOW;
    event.by = by;
    event.agg = agg;
    iol_step(system, &event, NULL, 0, NULL, 0, out, out_count, &reply);
    return reply;
}

/* Replies the new file. A name of 1 to 255 bytes. */
static inline iol_reply iol_file_new(iol_system *system, uint32_t by, const void *name, size_t name_count, uint32_t
    pool)
{
    iol_event event;
    iol_reply reply;
    memset(&event, 0, sizeof event);
    event.kind = IOL_FILE_NEW;
    event.by = by;
    event.id = pool;
    iol_step(system, &event, (const uint8_t *)name, name_count, NULL, 0, NULL, 0, &reply);
    return reply;
}

/* Replies the new descriptor. `mode` is an iol_mode. */
static inline iol_reply iol_open_file(iol_system *system, uint32_t by, const void *name, size_t name_count, uint32_t
    mode)
{
    iol_event event;
    iol_reply reply;
    memset(&event, 0, sizeof event);
    event.kind = IOL_OPEN_FILE;
    event.by = by;
    event.from = mode;
    iol_step(system, &event, (const uint8_t *)name, name_count, NULL, 0, NULL, 0, &reply);
    return reply;
}

/* Replies its read end and its write end. A pipe holds at most 65,536 bytes. */
static inline iol_reply iol_pipe(iol_system *system, uint32_t by)
{
    iol_event event;
    iol_reply reply;
    memset(&event, 0, sizeof event);
    event.kind = IOL_PIPE;
    event.by = by;
    iol_step(system, &event, NULL, 0, NULL, 0, NULL, 0, &reply);
    return reply;
}

/* Replies the receiver's descriptor. */
static inline iol_reply iol_give_fd(iol_system *system, uint32_t by, uint32_t fd, uint32_t to)
{
    iol_event event;
    iol_reply reply;
    memset(&event, 0, sizeof event);
    event.kind = IOL_GIVE_FD;
    event.by = by;
    event.id = fd;
    event.to = to;
    iol_step(system, &event, NULL, 0, NULL, 0, NULL, 0, &reply);
    return reply;
}

static inline iol_reply iol_close(iol_system *system, uint32_t by, uint32_t fd)
{
    iol_event event;
    iol_reply reply;
    memset(&event, 0, sizeof event);
    event.kind = IOL_CLOSE;
    event.by = by;
    event.id = fd;
    iol_step(system, &event, NULL, 0, NULL, 0, NULL, 0, &reply);
    return reply;
}

/* `at` is at most the file's length. */
static inline iol_reply iol_seek(iol_system *system, uint32_t by, uint32_t fd, uint32_t at)
{
    iol_event event;
    iol_reply reply;
    memset(&event, 0, sizeof event);
    event.kind = IOL_SEEK;
    event.by = by;
    event.id = fd;
    event.from = at;
    iol_step(system, &event, NULL, 0, NULL, 0, NULL, 0, &reply);
    return reply;
}

/* Replies the length of the file in bytes. */
static inline iol_reply iol_length(iol_system *system, uint32_t by, uint32_t fd)
{
    iol_event event;
    iol_reply reply;
    memset(&event, 0, sizeof event);
    event.kind = IOL_LENGTH;
    event.by = by;
    event.id = fd;
    iol_step(system, &event, NULL, 0, NULL, 0, NULL, 0, &reply);
    return reply;
}

/* Replies an aggregate of at most `count` bytes. Copies no byte that is in memory. */
static inline iol_reply iol_read(iol_system *system, uint32_t by, uint32_t fd, uint32_t count)
{
    iol_event event;
    iol_reply reply;
    memset(&event, 0, sizeof event);
    event.kind = IOL_READ;
    event.by = by;
    event.id = fd;
    event.from = count;
    iol_step(system, &event, NULL, 0, NULL, 0, NULL, 0, &reply);
    return reply;
}

/* Replies the number of bytes taken. The aggregate stays. */
static inline iol_reply iol_write(iol_system *system, uint32_t by, uint32_t fd, uint64_t agg)
{
    iol_event event;
    iol_reply reply;
    memset(&event, 0, sizeof event);
    event.kind = IOL_WRITE;
    event.by = by;
    event.id = fd;
    event.agg = agg;
    iol_step(system, &event, NULL, 0, NULL, 0, NULL, 0, &reply);
    return reply;
}

/* Writes all of the file that is dirty back to the store. */
static inline iol_reply iol_fsync(iol_system *system, uint32_t by, uint32_t fd)
{
    iol_event event;
    iol_reply reply;
    memset(&event, 0, sizeof event);
    event.kind = IOL_FSYNC;
    event.by = by;
    event.id = fd;
    iol_step(system, &event, NULL, 0, NULL, 0, NULL, 0, &reply);
    return reply;
}

/* Replies the number of bytes. Copies at most `count` bytes to `out`, which has room for as many. */
static inline iol_reply iol_read_copy(iol_system *system, uint32_t by, uint32_t fd, uint32_t count, uint8_t *out,
    size_t out_count)
{
    iol_event event;
    iol_reply reply;
    memset(&event, 0, sizeof event);
    event.kind = IOL_READ_COPY;
    event.by = by;
    event.id = fd;
    event.from = count;
    iol_step(system, &event, NULL, 0, NULL, 0, out, out_count, &reply);
    return reply;
}

/* Replies the number of bytes taken. */
static inline iol_reply iol_write_copy(iol_system *system, uint32_t by, uint32_t fd, const void *data, size_t
    data_count)
{
    iol_event event;
    iol_reply reply;
    memset(&event, 0, sizeof event);
    event.kind = IOL_WRITE_COPY;
    event.by = by;
    event.id = fd;
    iol_step(system, &event, (const uint8_t *)data, data_count, NULL, 0, NULL, 0, &reply);
    return reply;
}

/* Replies the connection's descriptor. */
static inline iol_reply iol_accept(iol_system *system, uint32_t by)
{
    iol_event event;
    iol_reply reply;
    memset(&event, 0, sizeof event);
    event.kind = IOL_ACCEPT;
    event.by = by;
    iol_step(system, &event, NULL, 0, NULL, 0, NULL, 0, &reply);
    return reply;
}

/* Replies the new connection. */
static inline iol_reply iol_conn_new(iol_system *system, uint32_t pool)
{
    iol_event event;
    iol_reply reply;
    memset(&event, 0, sizeof event);
    event.kind = IOL_CONN_NEW;
    event.id = pool;
    iol_step(system, &event, NULL, 0, NULL, 0, NULL, 0, &reply);
    return reply;
}

/* Replies the number of bytes taken. */
static inline iol_reply iol_arrive(iol_system *system, uint32_t conn, const void *data, size_t data_count)
{
    iol_event event;
    iol_reply reply;
    memset(&event, 0, sizeof event);
    event.kind = IOL_ARRIVE;
    event.id = conn;
    iol_step(system, &event, (const uint8_t *)data, data_count, NULL, 0, NULL, 0, &reply);
    return reply;
}

/* `how` is an iol_how. */
static inline iol_reply iol_peer_closed(iol_system *system, uint32_t conn, uint32_t how)
{
    iol_event event;
    iol_reply reply;
    memset(&event, 0, sizeof event);
    event.kind = IOL_PEER_CLOSED;
    event.id = conn;
    event.from = how;
    iol_step(system, &event, NULL, 0, NULL, 0, NULL, 0, &reply);
    return reply;
}

/* Replies the number of bytes and their Internet checksum. Copies at most `max` bytes to `out`, which has room for as
 * many. */
static inline iol_reply iol_transmit(iol_system *system, uint32_t conn, uint32_t max, uint8_t *out, size_t out_count)
{
    iol_event event;
    iol_reply reply;
    memset(&event, 0, sizeof event);
    event.kind = IOL_TRANSMIT;
    event.id = conn;
    event.from = max;
    iol_step(system, &event, NULL, 0, NULL, 0, out, out_count, &reply);
    return reply;
}

/* Writes the first dirty extent of the files back to the store. */
static inline iol_reply iol_flush(iol_system *system)
{
    iol_event event;
    iol_reply reply;
    memset(&event, 0, sizeof event);
    event.kind = IOL_FLUSH;
    iol_step(system, &event, NULL, 0, NULL, 0, NULL, 0, &reply);
    return reply;
}

/* Forgets what memory has of files that the store has, too. */
static inline iol_reply iol_drop_clean(iol_system *system)
{
    iol_event event;
    iol_reply reply;
    memset(&event, 0, sizeof event);
    event.kind = IOL_DROP_CLEAN;
    iol_step(system, &event, NULL, 0, NULL, 0, NULL, 0, &reply);
    return reply;
}

/* Copies the bytes of an aggregate from byte `from` on to `out`, without an event. Replies the number of bytes copied, and of
 * all bytes of the aggregate. */
static inline iol_reply iol_copy(iol_system *system, uint32_t by, uint64_t agg, uint64_t from, uint8_t *out, size_t out_count)
{
    iol_part part[16];
    iol_reply reply;
    uint64_t at = 0, copied = 0;
    size_t skip = 0;
    do {
        iol_parts(system, by, agg, skip, part, 16, &reply);
        if (reply.refusal)
            return reply;
        for (size_t i = 0; i < 16 && skip + i < reply.number; at += part[i++].len) {
            uint64_t first = from > at ? from - at : 0;
            if (first >= part[i].len || copied == out_count)
                continue;
            size_t count = part[i].len - first < out_count - copied ? part[i].len - first : out_count - copied;
            memcpy(out + copied, part[i].at + first, count);
            copied += count;
        }
        skip += 16;
    } while (skip < reply.number && copied < out_count);
    reply.number = copied;
    return reply;
}

#ifdef __cplusplus
}
#endif
#endif
