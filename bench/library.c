/*
 * Measures what the border costs: calls that only read a value, and the check and the query of no bytes, which are refused at once.
 *
 *     cc -O2 -o library bench/library.c build/libmls_check.a
 *     ./library examples/real/epoch-1.info examples/real/receipts.txt
 */
#define _POSIX_C_SOURCE 199309L
#include "../examples/c/support.h"
#include "../include/mls_check.h"
#include <time.h>

static double seconds(void) {
    struct timespec now;
    clock_gettime(CLOCK_MONOTONIC, &now);
    return (double)now.tv_sec + (double)now.tv_nsec / 1e9;
}

static void report(const char *call, double since, long count) {
    printf("%-28s %8.1f ns\n", call, (seconds() - since) * 1e9 / (double)count);
}

int main(int count, char **words) {
    (void)take_vector;
    const long many = 10000000, some = 20000;
    mls_follower group = MLS_NO_FOLLOWER_YET;
    uint8_t reference[MLS_REFERENCE_SIZE] = {0};
    struct bytes info, receipts;
    uint64_t epoch, sum = 0;
    size_t needed;
    double since;
    if (count != 3)
        die("usage: library INFO RECEIPTS");
    info = read_file(words[1]);
    receipts = read_receipts(words[2]);
    since = seconds();
    for (long i = 0; i < some; i++)
        if (mls_follower_start(info.at, info.len, MLS_EMPTY, receipts.at, receipts.len, MLS_PROFILE_MEMBERS, &group).number)
            die("no follower starts");
    report("start and free", since, some);
    since = seconds();
    for (long i = 0; i < many; i++) {
        mls_follower_epoch(&group, &epoch);
        sum += epoch;
    }
    report("epoch", since, many);
    since = seconds();
    for (long i = 0; i < many; i++)
        sum += mls_follower_tree_hash(&group, reference, sizeof reference, &needed);
    report("tree hash", since, many);
    since = seconds();
    for (long i = 0; i < many; i++)
        sum += mls_follower_judge(&group, MLS_EMPTY, reference, sizeof reference).number;
    report("judge no bytes", since, many);
    since = seconds();
    for (long i = 0; i < many; i++)
        sum += mls_follower_query(&group, MLS_EMPTY, reference, sizeof reference, &needed);
    report("query no bytes", since, many);
    printf("%llu\n", (unsigned long long)sum);
    mls_follower_free(&group);
    free(info.at);
    free(receipts.at);
    return 0;
}
