/* Measures what calls cost through the header's functions: a line each, its name and the nanoseconds of processor time of a call.
 * It measures once; bench/bindings runs it several times. */
#include "iolite.h"
#include <stdio.h>
#include <stdlib.h>
#include <time.h>

#define PAGE 4096
#define LARGE 65536

static iol_system sys;
static uint8_t bytes[LARGE], out[LARGE];
static uint32_t read_end, write_end;
static uint64_t small, page, large;

static uint64_t done(iol_reply reply)
{
    if (reply.refusal) {
        fprintf(stderr, "refused: %s\n", iol_refusal_name(reply.refusal));
        exit(1);
    }
    return reply.number;
}

static void dup_and_drop(void)
{
    done(iol_agg_drop(&sys, 1, done(iol_agg_dup(&sys, 1, small))));
}

static void pass_page(void)
{
    done(iol_write(&sys, 1, write_end, page));
    done(iol_agg_drop(&sys, 1, done(iol_read(&sys, 1, read_end, PAGE))));
}

static void refused(void)
{
    if (iol_length(&sys, 1, read_end).refusal != IOL_WRONG_MODE)
        exit(1);
}

static void make(size_t count)
{
    done(iol_agg_drop(&sys, 1, done(iol_agg_make(&sys, 1, bytes, count))));
}

static void make_small(void)
{
    make(5);
}

static void make_page(void)
{
    make(PAGE);
}

static void make_large(void)
{
    make(LARGE);
}

static void borrow(uint64_t agg)
{
    iol_part part[16];
    iol_reply reply;
    iol_parts(&sys, 1, agg, 0, part, 16, &reply);
    done(reply);
}

static void borrow_page(void)
{
    borrow(page);
}

static void borrow_large(void)
{
    borrow(large);
}

static void show_page(void)
{
    done(iol_show(&sys, 1, page, out, sizeof out));
}

static void show_large(void)
{
    done(iol_show(&sys, 1, large, out, sizeof out));
}

static void copy_page(void)
{
    done(iol_copy(&sys, 1, page, 0, out, sizeof out));
}

static double now(void)
{
    struct timespec at;
    clock_gettime(CLOCK_PROCESS_CPUTIME_ID, &at);
    return (double)at.tv_sec * 1e9 + (double)at.tv_nsec;
}

static void measure(const char *name, void (*round)(void), int calls, long rounds)
{
    double began = now();
    for (long n = 0; n < rounds; n++)
        round();
    printf("%s\t%.1f\n", name, (now() - began) / (double)rounds / calls);
}

int main(int argc, char **argv)
{
    long rounds = argc > 1 ? atol(argv[1]) : 200000;
    uint32_t one = 1;
    if (iol_system_new(256, UINT32_MAX, 1024, &sys))
        return 1;
    done(iol_set_pool(&sys, 1, (uint32_t)done(iol_pool_create(&sys, 1, 64, &one, 1))));
    iol_reply ends = iol_pipe(&sys, 1);
    read_end = (uint32_t)done(ends);
    write_end = (uint32_t)ends.second;
    small = done(iol_agg_make(&sys, 1, "hello", 5));
    page = done(iol_agg_make(&sys, 1, bytes, PAGE));
    large = done(iol_agg_make(&sys, 1, bytes, LARGE));
    measure("agg_dup, agg_drop", dup_and_drop, 2, rounds);
    measure("write, read, agg_drop of a page through a pipe", pass_page, 3, rounds);
    measure("length of a pipe, refused", refused, 1, rounds);
    measure("agg_make of 5 bytes, agg_drop", make_small, 2, rounds);
    measure("agg_make of 4,096 bytes, agg_drop", make_page, 2, rounds);
    measure("agg_make of 65,536 bytes, agg_drop", make_large, 2, rounds / 10);
    measure("parts of a page", borrow_page, 1, rounds);
    measure("parts of 64 KiB", borrow_large, 1, rounds);
    measure("copy of a page", copy_page, 1, rounds);
    measure("show of a page", show_page, 1, rounds);
    measure("show of 64 KiB", show_large, 1, rounds / 10);
    iol_system_free(&sys);
    return 0;
}
