/*
 * Plays a script of docs/RULES.md ("Scripts") from standard input through the library, and prints its replies as
 * `iolite replay` does. A script with a store or a fault is played over descriptors, each other one over memory.
 *
 * The linker gives pread and pwrite a second name (--wrap), so that the call of the store that the script names fails.
 * The program itself allocates nothing: each allocation is one of the library.
 */
#include "iolite.h"
#include <stdio.h>
#include <stdlib.h>
#include <string.h>
#include <sys/mman.h>
#include <sys/types.h>
#include <unistd.h>

#define MAX_SCRIPT (1 << 24)
#define MAX_TEXT ((1 << 24) + 1)
#define MAX_FILES 1024
#define MAX_POOLS 1024

typedef struct call {
    const char *name;
    uint32_t kind;
    const char *words; /* n a number, l numbers, w a word of bytes, t the rest as bytes, m a mode, h how a peer closes */
    const char *reply; /* b bytes, s a segment, else the name in front of the numbers, a second one behind a plus */
} call;

enum { REPORT = 1000 };

static const call calls[] = {
    {"domain_new", IOL_DOMAIN_NEW, "", "domain"},
    {"exit", IOL_EXIT, "", "done"},
    {"pool_create", IOL_POOL_CREATE, "nl", "pool"},
    {"pool_close", IOL_POOL_CLOSE, "n", "done"},
    {"pool_admit", IOL_POOL_ADMIT, "nn", "done"},
    {"set_pool", IOL_SET_POOL, "n", "done"},
    {"agg_make", IOL_AGG_MAKE, "t", "agg"},
    {"agg_fill", IOL_AGG_MAKE, "nt", "agg"},
    {"agg_dup", IOL_AGG_DUP, "n", "agg"},
    {"agg_cut", IOL_AGG_CUT, "nnn", "agg"},
    {"agg_split", IOL_AGG_SPLIT, "nn", "aggs+"},
    {"agg_join", IOL_AGG_JOIN, "nn", "agg"},
    {"agg_replace", IOL_AGG_REPLACE, "nnnn", "agg"},
    {"agg_drop", IOL_AGG_DROP, "n", "done"},
    {"agg_give", IOL_AGG_GIVE, "nn", "agg"},
    {"show", IOL_SHOW, "n", "b"},
    {"file_new", IOL_FILE_NEW, "wn", "file"},
    {"open_file", IOL_OPEN_FILE, "wm", "fd"},
    {"pipe", IOL_PIPE, "", "fds+"},
    {"give_fd", IOL_GIVE_FD, "nn", "fd"},
    {"close", IOL_CLOSE, "n", "done"},
    {"seek", IOL_SEEK, "nn", "done"},
    {"length", IOL_LENGTH, "n", "count"},
    {"iol_read", IOL_READ, "nn", "agg"},
    {"iol_write", IOL_WRITE, "nn", "count"},
    {"fsync", IOL_FSYNC, "n", "done"},
    {"read", IOL_READ_COPY, "nn", "b"},
    {"write", IOL_WRITE_COPY, "nt", "count"},
    {"accept", IOL_ACCEPT, "", "fd"},
    {"conn_new", IOL_CONN_NEW, "n", "conn"},
    {"arrive", IOL_ARRIVE, "nt", "count"},
    {"peer_closed", IOL_PEER_CLOSED, "nh", "done"},
    {"transmit", IOL_TRANSMIT, "nn", "s"},
    {"flush", IOL_FLUSH, "", "done"},
    {"drop_clean", IOL_DROP_CLEAN, "", "done"},
    {"report", REPORT, "", ""},
};

/* The words of a line. */
typedef struct line {
    const call *call;
    uint32_t by;
    uint64_t number[4];
    uint32_t domains[64];
    size_t domain_count;
    size_t length; /* of `text` */
} line;

static char script[MAX_SCRIPT + 1];
static uint8_t text[MAX_TEXT], out[MAX_TEXT];
static char written[1 << 16];
static size_t pending;
static iol_system sys;
static uint32_t sizes[3] = {256, UINT32_MAX, 1024};
static int32_t fds[MAX_FILES];
static uint32_t lens[MAX_FILES];
static size_t file_count;
static int is_over;
static long failing; /* the call of the store that fails, counted down to 0, or 0 where none is to */

ssize_t __real_pread(int fd, void *into, size_t count, off_t at);
ssize_t __real_pwrite(int fd, const void *from, size_t count, off_t at);

static int fails(void)
{
    return failing > 0 && --failing == 0;
}

ssize_t __wrap_pread(int fd, void *into, size_t count, off_t at)
{
    return fails() ? -1 : __real_pread(fd, into, count, at);
}

ssize_t __wrap_pwrite(int fd, const void *from, size_t count, off_t at)
{
    return fails() ? -1 : __real_pwrite(fd, from, count, at);
}

static void end(int status, const char *why)
{
    size_t count = strlen(why);
    if (write(2, why, count) != (ssize_t)count)
        _exit(4);
    _exit(status);
}

static void flush_output(void)
{
    size_t at = 0;
    while (at < pending) {
        ssize_t put = write(1, written + at, pending - at);
        if (put <= 0)
            end(3, "fault: output\n");
        at += (size_t)put;
    }
    pending = 0;
}

static void print(const char *from, size_t count)
{
    if (pending + count > sizeof written)
        flush_output();
    memcpy(written + pending, from, count);
    pending += count;
}

static void print_word(const char *word)
{
    print(word, strlen(word));
}

static void print_number(uint64_t number)
{
    char digits[24];
    int at = sizeof digits;
    do
        digits[--at] = (char)('0' + number % 10);
    while (number /= 10);
    print(digits + at, sizeof digits - (size_t)at);
}

/* Prints a checksum as four digits. */
static void print_sum(uint64_t sum)
{
    for (int shift = 12; shift >= 0; shift -= 4)
        print(&"0123456789abcdef"[sum >> shift & 15], 1);
}

/* Prints a text behind a space, or nothing where it is empty. */
static void print_bytes(const uint8_t *bytes, uint64_t count)
{
    static const char hex[] = "0123456789ABCDEF";
    if (count)
        print_word(" ");
    for (uint64_t i = 0; i < count; i++) {
        char coded[3] = {(char)bytes[i], 0, 0};
        int is_plain = bytes[i] > 0x20 && bytes[i] < 0x7F && bytes[i] != '%';
        if (!is_plain) {
            coded[0] = '%';
            coded[1] = hex[bytes[i] >> 4];
            coded[2] = hex[bytes[i] & 15];
        }
        print(coded, is_plain ? 1 : 3);
    }
}

/* Takes the next word of a line, which ends with a space or the line. */
static char *next_word(char **rest)
{
    char *word = *rest, *space = strchr(word, ' ');
    *rest = space ? space + 1 : word + strlen(word);
    if (space)
        *space = 0;
    return word;
}

static int digit(char c)
{
    return c >= '0' && c <= '9' ? c - '0' : c >= 'a' && c <= 'f' ? c - 'a' + 10 : c >= 'A' && c <= 'F' ? c - 'A' + 10 : -1;
}

/* The bytes of a text go to `into`: how many they are. */
static size_t decode(const char *word, uint8_t *into, size_t room)
{
    size_t count = 0;
    for (; *word && count < room; count++) {
        int is_coded = *word == '%' && digit(word[1]) >= 0 && digit(word[2]) >= 0;
        into[count] = is_coded ? (uint8_t)(16 * digit(word[1]) + digit(word[2])) : (uint8_t)*word;
        word += is_coded ? 3 : 1;
    }
    return count;
}

/* Has the first `length` bytes of the text stand `times` times. */
static size_t repeat(size_t length, uint64_t times)
{
    if (length * times > MAX_TEXT)
        end(2, "a text that is too long\n");
    for (uint64_t i = 1; length && i < times; i++)
        memcpy(text + i * length, text, length);
    return length * (size_t)times;
}

static uint64_t number_in(const char *word)
{
    return strtoull(word, NULL, 10);
}

static void read_words(char *rest, line *it)
{
    int numbers = 0;
    for (const char *kind = it->call->words; *kind; kind++) {
        char *word = *kind == 't' ? rest : next_word(&rest);
        switch (*kind) {
        case 'n':
            it->number[numbers++] = number_in(word);
            break;
        case 'l':
            for (char *at = word; *at && it->domain_count < 64; at += strspn(at, ","))
                it->domains[it->domain_count++] = (uint32_t)strtoul(at, &at, 10);
            break;
        case 'm':
            it->number[numbers++] = *word == 'r' ? IOL_MODE_READ : *word == 'w' ? IOL_MODE_WRITE : IOL_MODE_BOTH;
            break;
        case 'h':
            it->number[numbers++] = *word == 'd' ? IOL_PEER_DONE : IOL_PEER_GONE;
            break;
        default:
            it->length = decode(word, text, sizeof text);
        }
    }
    if (strcmp(it->call->name, "agg_fill") == 0)
        it->length = repeat(it->length, it->number[0]);
}

/* The number of bytes asked for, at most those that `out` has room for: no reply has more. */
static uint32_t fitting(uint32_t count)
{
    return count < sizeof out ? count : (uint32_t)sizeof out;
}

/* Carries out what happens outside. */
static iol_reply outside(const line *it)
{
    uint32_t first = (uint32_t)it->number[0], second = (uint32_t)it->number[1];
    switch (it->call->kind) {
    case IOL_CONN_NEW:
        return iol_conn_new(&sys, first);
    case IOL_ARRIVE:
        return iol_arrive(&sys, first, text, it->length);
    case IOL_PEER_CLOSED:
        return iol_peer_closed(&sys, first, second);
    case IOL_TRANSMIT:
        return iol_transmit(&sys, first, fitting(second), out, sizeof out);
    case IOL_FLUSH:
        return iol_flush(&sys);
    default:
        return iol_drop_clean(&sys);
    }
}

/* Carries out a call on domains, pools, files and descriptors. */
static iol_reply on_descriptors(const line *it)
{
    uint32_t first = (uint32_t)it->number[0], second = (uint32_t)it->number[1];
    switch (it->call->kind) {
    case IOL_DOMAIN_NEW:
        return iol_domain_new(&sys, it->by);
    case IOL_EXIT:
        return iol_exit(&sys, it->by);
    case IOL_POOL_CREATE:
        return iol_pool_create(&sys, it->by, first, it->domains, it->domain_count);
    case IOL_POOL_CLOSE:
        return iol_pool_close(&sys, it->by, first);
    case IOL_POOL_ADMIT:
        return iol_pool_admit(&sys, it->by, first, second);
    case IOL_SET_POOL:
        return iol_set_pool(&sys, it->by, first);
    case IOL_FILE_NEW:
        return iol_file_new(&sys, it->by, text, it->length, first);
    case IOL_OPEN_FILE:
        return iol_open_file(&sys, it->by, text, it->length, first);
    case IOL_PIPE:
        return iol_pipe(&sys, it->by);
    case IOL_GIVE_FD:
        return iol_give_fd(&sys, it->by, first, second);
    case IOL_CLOSE:
        return iol_close(&sys, it->by, first);
    case IOL_SEEK:
        return iol_seek(&sys, it->by, first, second);
    case IOL_LENGTH:
        return iol_length(&sys, it->by, first);
    case IOL_READ:
        return iol_read(&sys, it->by, first, second);
    case IOL_WRITE:
        return iol_write(&sys, it->by, first, it->number[1]);
    case IOL_FSYNC:
        return iol_fsync(&sys, it->by, first);
    case IOL_READ_COPY:
        return iol_read_copy(&sys, it->by, first, fitting(second), out, sizeof out);
    case IOL_WRITE_COPY:
        return iol_write_copy(&sys, it->by, first, text, it->length);
    case IOL_ACCEPT:
        return iol_accept(&sys, it->by);
    default:
        return outside(it);
    }
}

/* Shows an aggregate, and compares the bytes with those that are borrowed and those that are copied. */
static iol_reply show(const line *it)
{
    static uint8_t copied[MAX_TEXT];
    iol_part part[3];
    iol_reply reply = iol_show(&sys, it->by, it->number[0], out, sizeof out), lent;
    size_t at = 0, skip = 0;
    if (reply.refusal == IOL_MEMORY)
        return reply; /* borrowing takes no memory */
    do {
        iol_parts(&sys, it->by, it->number[0], skip, part, 3, &lent);
        if (lent.refusal != reply.refusal || lent.about != reply.about)
            end(4, "parts and show are refused otherwise\n");
        for (size_t i = 0; reply.refusal == 0 && i < 3 && skip < lent.number; i++, skip++) {
            if (memcmp(part[i].at, out + at, part[i].len) != 0)
                end(4, "parts and show have other bytes\n");
            at += part[i].len;
        }
    } while (reply.refusal == 0 && skip < lent.number);
    if (reply.refusal == 0 && (at != reply.number || lent.second != reply.number))
        end(4, "parts and show have other lengths\n");
    lent = iol_copy(&sys, it->by, it->number[0], at / 3, copied, sizeof copied);
    if (reply.refusal == 0 && (lent.number != at - at / 3 || memcmp(copied, out + at / 3, lent.number) != 0))
        end(4, "a copy has other bytes\n");
    return reply;
}

/* Carries out a call on aggregates, or one of the others. */
static iol_reply carry_out(const line *it)
{
    uint64_t agg = it->number[0];
    uint32_t second = (uint32_t)it->number[1];
    switch (it->call->kind) {
    case IOL_AGG_MAKE:
        return iol_agg_make(&sys, it->by, text, it->length);
    case IOL_AGG_DUP:
        return iol_agg_dup(&sys, it->by, agg);
    case IOL_AGG_CUT:
        return iol_agg_cut(&sys, it->by, agg, second, (uint32_t)it->number[2]);
    case IOL_AGG_SPLIT:
        return iol_agg_split(&sys, it->by, agg, second);
    case IOL_AGG_JOIN:
        return iol_agg_join(&sys, it->by, agg, it->number[1]);
    case IOL_AGG_REPLACE:
        return iol_agg_replace(&sys, it->by, agg, second, (uint32_t)it->number[2], it->number[3]);
    case IOL_AGG_DROP:
        return iol_agg_drop(&sys, it->by, agg);
    case IOL_AGG_GIVE:
        return iol_agg_give(&sys, it->by, agg, second);
    case IOL_SHOW:
        return show(it);
    default:
        return on_descriptors(it);
    }
}

static void print_report(void)
{
    static iol_pool pools[MAX_POOLS];
    iol_report_counts report;
    iol_report(&sys, pools, MAX_POOLS, &report);
    if (report.refusal) {
        flush_output();
        end(3, "fault: memory\n");
    }
    for (uint64_t i = 0; i < report.pools; i++) {
        print_word("pool ");
        print_number(pools[i].pool);
        print_word(" pages ");
        print_number(pools[i].pages);
        print_word(" free ");
        print_number(pools[i].free);
        print_word(" retired ");
        print_number(pools[i].retired);
        print_word("\n");
    }
    print_word("extents ");
    print_number(report.extents);
    print_word(" dirty ");
    print_number(report.dirty);
    print_word(" buffers ");
    print_number(report.buffers);
    print_word("\n");
}

static void print_refusal(const iol_reply *reply)
{
    print_word("refused ");
    print_word(iol_refusal_name(reply->refusal));
    if (reply->about) {
        print_word(reply->refusal == IOL_FAULT ? " file " : " pool ");
        print_number(reply->about);
    }
    print_word("\n");
}

static void print_reply(const char *form, const iol_reply *reply)
{
    if (reply->refusal) {
        print_refusal(reply);
    } else if (*form == 'b' || *form == 's') {
        print_word(*form == 'b' ? "bytes" : "segment ");
        if (*form == 's')
            print_sum(reply->second);
        print_bytes(out, reply->number);
        print_word("\n");
    } else {
        print(form, strcspn(form, "+"));
        if (strcmp(form, "done") != 0) {
            print_word(" ");
            print_number(reply->number);
        }
        if (strchr(form, '+')) {
            print_word(" ");
            print_number(reply->second);
        }
        print_word("\n");
    }
}

static int is_header(const char *word)
{
    return !strcmp(word, "config") || !strcmp(word, "fault") || !strcmp(word, "store") || !strcmp(word, "storen");
}

/* Has a file of the store in memory of the system, so that the library reads and writes it by descriptor. */
static void reach(size_t slot)
{
    for (; file_count < slot && file_count < MAX_FILES; file_count++) {
        fds[file_count] = memfd_create("slot", 0);
        if (fds[file_count] < 0)
            end(3, "fault: no descriptor\n");
    }
}

static void read_header(const char *word, char *rest)
{
    if (!strcmp(word, "config")) {
        for (int i = 0; i < 3; i++)
            sizes[i] = (uint32_t)number_in(next_word(&rest));
        return;
    }
    is_over = 1;
    if (!strcmp(word, "fault")) {
        failing = (long)number_in(rest);
        return;
    }
    size_t slot = (size_t)number_in(next_word(&rest));
    uint64_t times = !strcmp(word, "storen") ? number_in(next_word(&rest)) : 1;
    size_t length = decode(rest, text, sizeof text);
    length = times ? repeat(length, times) : 0;
    reach(slot);
    if (__real_pwrite(fds[slot - 1], text, length, lens[slot - 1]) != (ssize_t)length)
        end(3, "fault: the store\n");
    lens[slot - 1] += (uint32_t)length;
}

/* Makes the system that the headers say. */
static void begin(size_t new_files)
{
    uint32_t refusal;
    reach(is_over ? (file_count > new_files ? file_count : new_files) : 0);
    if (is_over)
        refusal = iol_system_over(sizes[0], sizes[1], sizes[2], fds, file_count, lens, file_count, &sys);
    else
        refusal = iol_system_new(sizes[0], sizes[1], sizes[2], &sys);
    if (refusal)
        end(3, refusal == IOL_MEMORY ? "fault: memory\n" : "the sizes are refused\n");
}

/* Carries out a line, whose first word is `word`, and prints the reply. */
static void play(char *word, char *rest)
{
    line it = {0};
    if (*word >= '0' && *word <= '9') {
        it.by = (uint32_t)number_in(word);
        word = next_word(&rest);
    }
    for (size_t i = 0; i < sizeof calls / sizeof *calls; i++)
        if (!strcmp(word, calls[i].name))
            it.call = &calls[i];
    if (!it.call)
        end(2, "not a command\n");
    read_words(rest, &it);
    if (it.call->kind == REPORT) {
        print_report();
        return;
    }
    iol_reply reply = carry_out(&it);
    print_reply(it.call->reply, &reply);
}

/* Passes over the lines: the first time over the headers, the second over the others. Returns how many files are made. */
static size_t pass(int is_second, size_t count)
{
    size_t new_files = 0;
    for (char *at = script, *next; at < script + count; at = next) {
        char *stop = memchr(at, '\n', (size_t)(script + count - at));
        next = (stop ? stop : script + count) + 1;
        if (stop)
            *stop = 0;
        char *rest = at, saved = at[strcspn(at, " ")];
        char *space = at + strcspn(at, " ");
        new_files += strstr(at, " file_new ") != NULL;
        if (*at && *at != '#') {
            char *word = next_word(&rest);
            if (!is_second && is_header(word))
                read_header(word, rest);
            else if (is_second && !is_header(word))
                play(word, rest);
        }
        if (!is_second) {
            *space = saved;
            if (stop)
                *stop = '\n';
        }
    }
    return new_files;
}

int main(void)
{
    size_t count = 0;
    ssize_t got;
    while ((got = read(0, script + count, MAX_SCRIPT - count)) > 0)
        count += (size_t)got;
    begin(pass(0, count));
    pass(1, count);
    flush_output();
    iol_system_free(&sys);
    if (sys.at)
        end(4, "a freed system is not empty\n");
    return 0;
}
