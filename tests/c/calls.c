/*
 * What jiwasampu.h says of every call, tried: replies and lanes, what is left in lent memory, empty slices with null pointers,
 * slices that overlap or lie at odd addresses, and the stack. It is C and C++ at once.
 */
#define _XOPEN_SOURCE 700
#include "jiwasampu.h"

#include <stdio.h>
#include <stdlib.h>
#include <string.h>
#include <ucontext.h>

enum { STACK_LIMIT = 16384 };

static int faults = 0;

static void expect(const char *name, uint64_t reply, unsigned number, unsigned where, unsigned place, unsigned node)
{
    uint64_t due = (uint64_t)node << 48 | (uint64_t)place << 32 | (uint64_t)where << 16 | number;
    if (reply != due) {
        printf("%s: the reply is %016llx, not %016llx\n", name, (unsigned long long)reply, (unsigned long long)due);
        faults++;
    }
}

static void expect_bytes(const char *name, const uint8_t *bytes, uint8_t first, uint8_t rest, size_t length)
{
    for (size_t i = 0; i < length; i++)
        if (bytes[i] != (i == 0 ? first : rest)) {
            printf("%s: byte %zu is %u\n", name, i, bytes[i]);
            faults++;
            return;
        }
}

/* Case K3 of the rules: from 1 2 3 to 1 4 3. Case K6: from 1 2 3 4 5 to 1 4 3 2 5. */
static const uint8_t k3_old[] = {1, 0, 2, 0, 3, 0}, k3_new[] = {1, 0, 4, 0, 3, 0};
static const uint8_t k6_old[] = {1, 0, 2, 0, 3, 0, 4, 0, 5, 0}, k6_new[] = {1, 0, 4, 0, 3, 0, 2, 0, 5, 0};
static const uint8_t ids_412[] = {4, 0, 1, 0, 2, 0}, ids_142[] = {1, 0, 4, 0, 2, 0}, ids_2314[] = {2, 0, 3, 0, 1, 0, 4, 0};
static const uint8_t sizes_111[] = {1, 0, 1, 0, 1, 0}, sizes_21[] = {2, 0, 1, 0}, sizes_211[] = {2, 0, 1, 0, 1, 0};

static uint8_t lent[70];

static uint64_t check_k3(unsigned mode, const uint8_t *ids, size_t ids_length, const uint8_t *sizes, size_t sizes_length)
{
    memset(lent, 0xa5, sizeof lent);
    return jiwasampu_check(k3_old, sizeof k3_old, k3_new, sizeof k3_new, (uint16_t)mode, ids, ids_length, sizes, sizes_length,
                           lent, sizeof lent);
}

static uint64_t check_k7(unsigned mode)
{
    memset(lent, 0xa5, sizeof lent);
    return jiwasampu_check(k6_old, sizeof k6_old, k6_new, sizeof k6_new, (uint16_t)mode, ids_2314, 8, sizes_211, 6, lent, 64);
}

static void check_replies(void)
{
    expect("K3, good", check_k3(0, ids_412, 6, sizes_111, 6), 0, 3, 3, 0);
    expect_bytes("K3, good, lent", lent, 0xa5, 0xa5, sizeof lent);
    expect("K4", check_k3(0, ids_142, 6, sizes_21, 4), 16, 1, 1, 0);
    expect_bytes("K4, set", lent, 1 << 1, 0, 64);
    expect_bytes("K4, past the set", lent + 64, 0xa5, 0xa5, sizeof lent - 64);
    expect("K7, strong", check_k7(0), 17, 1, 1, 0);
    expect_bytes("K7, set", lent, 1 << 3, 0, 64);
    expect("K7, relaxed", check_k7(1), 17, 1, 1, 0);
    expect("K12", check_k3(0, ids_412, 4, sizes_111, 4), 14, 0, 2, 0);
    expect_bytes("K12, lent", lent, 0xa5, 0xa5, sizeof lent);
    expect("mode 2", check_k3(2, ids_412, 6, sizes_111, 6), 8, 0, 0, 0);
    expect("mode 65535", check_k3(65535, ids_412, 6, sizes_111, 6), 8, 0, 0, 0);
    expect("odd ids", check_k3(0, ids_412, 5, sizes_111, 6), 1, 0, 0, 0);
    expect("odd sizes", check_k3(0, ids_412, 6, sizes_111, 5), 1, 0, 0, 0);
    expect("no rounds", check_k3(0, NULL, 0, NULL, 0), 14, 0, 1, 0);
    expect("short set", jiwasampu_check(k3_old, 6, k3_new, 6, 0, ids_412, 6, sizes_111, 6, lent, 63), 1, 0, 0, 0);
    expect("no set", jiwasampu_check(k3_old, 6, k3_new, 6, 0, ids_412, 6, sizes_111, 6, NULL, 0), 1, 0, 0, 0);
    expect("no routes", jiwasampu_check(NULL, 0, NULL, 0, 0, NULL, 0, NULL, 0, lent, 64), 4, 1, 0, 0);
    expect("K1, one slice twice", jiwasampu_check(k3_old, 4, k3_old, 4, 0, NULL, 0, NULL, 0, lent, 64), 0, 0, 0, 0);
}

static void walk_replies(void)
{
    uint8_t set[65] = {0};
    expect("K3, nothing changed", jiwasampu_walk(k3_old, 6, k3_new, 6, set, 64), 0, 0, 2, 0);
    set[0] = 1 << 1;
    expect("K14", jiwasampu_walk(k3_old, 6, k3_new, 6, set, 64), 0, 1, 1, 4);
    set[0] = 1 << 3;
    expect("K6, {3}", jiwasampu_walk(k6_old, 10, k6_new, 10, set, 64), 0, 2, 3, 2);
    expect("not due", jiwasampu_walk(k3_old, 6, k3_new, 6, set, 64), 12, 0, 3, 0);
    expect("short set", jiwasampu_walk(k3_old, 6, k3_new, 6, set, 63), 1, 0, 0, 0);
    expect("long set", jiwasampu_walk(k3_old, 6, k3_new, 6, set, 65), 1, 0, 0, 0);
    expect("odd route", jiwasampu_walk(k3_old, 6, k3_new, 5, set, 64), 1, 0, 0, 0);
    expect("nothing at all", jiwasampu_walk(NULL, 0, NULL, 0, NULL, 0), 1, 0, 0, 0);
    expect("no routes", jiwasampu_walk(NULL, 0, NULL, 0, set, 64), 4, 1, 0, 0);
}

/* From 1 2 3 8 4 to 1 3 2 9 4: 9 is installed, 1 and 2 go forward in the old order, 3 backward, and 8 is removed. */
static const uint8_t four_old[] = {1, 0, 2, 0, 3, 0, 8, 0, 4, 0}, four_new[] = {1, 0, 3, 0, 2, 0, 9, 0, 4, 0};
static const uint8_t ids_91238[] = {9, 0, 1, 0, 2, 0, 3, 0, 8, 0}, sizes_1211[] = {1, 0, 2, 0, 1, 0, 1, 0};

static uint8_t quick_ids[1030], quick_sizes[1029];

static uint64_t quick(const uint8_t *old_route, size_t old_length, const uint8_t *new_route, size_t new_length, unsigned mode,
                      size_t ids_length, size_t sizes_length)
{
    memset(quick_ids, 0xa5, sizeof quick_ids);
    memset(quick_sizes, 0x5a, sizeof quick_sizes);
    return jiwasampu_quick(old_route, old_length, new_route, new_length, (uint16_t)mode, quick_ids, ids_length, quick_sizes,
                           sizes_length);
}

/* What was lent begins with these ids and sizes, and is otherwise as it was. */
static void expect_rounds(const char *name, const uint8_t *ids, size_t ids_length, const uint8_t *sizes, size_t sizes_length)
{
    if (ids_length != 0 && memcmp(quick_ids, ids, ids_length) != 0) {
        printf("%s: other ids\n", name);
        faults++;
    }
    if (sizes_length != 0 && memcmp(quick_sizes, sizes, sizes_length) != 0) {
        printf("%s: other sizes\n", name);
        faults++;
    }
    expect_bytes(name, quick_ids + ids_length, 0xa5, 0xa5, sizeof quick_ids - ids_length);
    expect_bytes(name, quick_sizes + sizes_length, 0x5a, 0x5a, sizeof quick_sizes - sizes_length);
}

static void expect_kept(const char *name)
{
    expect_rounds(name, NULL, 0, NULL, 0);
}

static void quick_replies(void)
{
    for (unsigned mode = 0; mode < 2; mode++) {
        expect("quick, K1", quick(k3_old, 4, k3_old, 4, mode, 1030, 1029), 0, 0, 0, 0);
        expect_kept("quick, K1, lent");
        expect("quick, K3", quick(k3_old, 6, k3_new, 6, mode, 1024, 1024), 0, 3, 3, 0);
        expect_rounds("quick, K3, rounds", ids_412, 6, sizes_111, 6);
        expect("quick, four rounds", quick(four_old, 10, four_new, 10, mode, 1030, 1029), 0, 4, 5, 0);
        expect_rounds("quick, four rounds, rounds", ids_91238, 10, sizes_1211, 8);
        expect("quick, K6", quick(k6_old, 10, k6_new, 10, mode, 1024, 1024), 19, 0, 3, 0);
        expect_kept("quick, K6, lent");
    }
    expect("quick, mode 2", quick(k3_old, 6, k3_new, 6, 2, 1024, 1024), 8, 0, 0, 0);
    expect_kept("quick, mode 2, lent");
    expect("quick, mode 2 before 19", quick(k6_old, 10, k6_new, 10, 2, 1024, 1024), 8, 0, 0, 0);
    expect("quick, short ids", quick(k6_old, 10, k6_new, 10, 0, 1023, 1024), 1, 0, 0, 0);
    expect("quick, short sizes", quick(k3_old, 6, k3_new, 6, 0, 1024, 1023), 1, 0, 0, 0);
    expect("quick, odd route", quick(k3_old, 6, k3_new, 5, 0, 1024, 1024), 1, 0, 0, 0);
    expect("quick, no routes", quick(NULL, 0, NULL, 0, 0, 1024, 1024), 4, 1, 0, 0);
    expect("quick, new of one id", quick(k3_old, 6, k3_new, 2, 0, 1024, 1024), 4, 2, 0, 0);
    expect("quick, last ids differ", quick(k3_old, 6, k3_new, 4, 0, 1024, 1024), 7, 0, 1, 0);
    expect_kept("quick, last ids differ, lent");
    expect("quick, nothing at all", jiwasampu_quick(NULL, 0, NULL, 0, 0, NULL, 0, NULL, 0), 1, 0, 0, 0);
}

/* 70,001 rounds of one id; only the last id is not due. */
static void wide_lanes(void)
{
    const size_t count = 70001;
    uint8_t *ids = (uint8_t *)calloc(count, 2), *sizes = (uint8_t *)calloc(count, 2);
    if (!ids || !sizes)
        abort();
    for (size_t i = 0; i < count; i++)
        ids[2 * i] = sizes[2 * i] = 1;
    ids[2 * count - 2] = 9;
    expect("wide lanes", check_k3(0, ids, 2 * count, sizes, 2 * count), 12, 65535, 65535, 0);
    free(ids);
    free(sizes);
}

/* Each slice one byte past an even address. */
static void odd_addresses(void)
{
    static uint64_t room[6][10];
    uint8_t *at[6];
    for (int i = 0; i < 6; i++)
        at[i] = (uint8_t *)room[i] + 1;
    memcpy(at[0], k3_old, 6);
    memcpy(at[1], k3_new, 6);
    memcpy(at[2], ids_142, 6);
    memcpy(at[3], sizes_21, 4);
    expect("odd addresses", jiwasampu_check(at[0], 6, at[1], 6, 0, at[2], 6, at[3], 4, at[4], 64), 16, 1, 1, 0);
    expect("odd addresses, walk", jiwasampu_walk(at[0], 6, at[1], 6, at[4], 64), 0, 1, 1, 4);
}

static uint8_t stack[65536];
static ucontext_t here, there;

/* The bytes of a painted stack that a run of `calls` changes. */
static size_t depth(void (*calls)(void))
{
    memset(stack, 0xa5, sizeof stack);
    getcontext(&there);
    there.uc_stack.ss_sp = stack;
    there.uc_stack.ss_size = sizeof stack;
    there.uc_link = &here;
    makecontext(&there, calls, 0);
    swapcontext(&here, &there);
    size_t clean = 0;
    while (clean < sizeof stack && stack[clean] == 0xa5)
        clean++;
    return sizeof stack - clean;
}

/* The longest routes, first and last id in common, each other id on one of them: all but the destination are due. */
static uint8_t long_old[512], long_new[512], long_ids[1018], long_sizes[1018];

static void long_change(void)
{
    for (int i = 0; i < 256; i++) {
        int old_id = i, new_id = i == 0 || i == 255 ? i : 256 + i;
        long_old[2 * i] = (uint8_t)old_id;
        long_old[2 * i + 1] = (uint8_t)(old_id >> 8);
        long_new[2 * i] = (uint8_t)new_id;
        long_new[2 * i + 1] = (uint8_t)(new_id >> 8);
    }
    /* installs, the switch, removes: a round each */
    for (int i = 0; i < 509; i++) {
        int id = i < 254 ? 257 + i : i - 254;
        long_ids[2 * i] = (uint8_t)id;
        long_ids[2 * i + 1] = (uint8_t)(id >> 8);
        long_sizes[2 * i] = 1;
    }
}

static uint64_t long_check(int mode)
{
    return jiwasampu_check(long_old, 512, long_new, 512, (uint16_t)mode, long_ids, 1018, long_sizes, 1018, lent, 64);
}

static void run_checks(void)
{
    check_k7(0);
    check_k7(1);
    check_k3(0, ids_142, 6, sizes_21, 4);
    long_check(0);
    long_check(1);
}

static void run_walks(void)
{
    static const uint8_t none[64] = {0};
    jiwasampu_walk(long_old, 512, long_new, 512, none, 64);
}

/* The same change planned, and the reversal of the longest route, in both modes: the planner's longest way. */
static uint8_t turned[512], ids[1024], sizes[1024];

static void run_plans(void)
{
    for (int i = 0; i < 256; i++) {
        int id = i == 0 || i == 255 ? i : 255 - i;
        turned[2 * i] = (uint8_t)id;
        turned[2 * i + 1] = (uint8_t)(id >> 8);
    }
    for (uint16_t mode = 0; mode < 2; mode++) {
        jiwasampu_plan(long_old, sizeof long_old, long_new, sizeof long_new, mode, ids, sizeof ids, sizes, sizeof sizes);
        jiwasampu_plan(long_old, sizeof long_old, turned, sizeof turned, mode, ids, sizeof ids, sizes, sizeof sizes);
    }
}

/* The same changes for the quick planner, and one with all four rounds. */
static void run_quick(void)
{
    for (uint16_t mode = 0; mode < 2; mode++) {
        jiwasampu_quick(long_old, sizeof long_old, long_new, sizeof long_new, mode, ids, sizeof ids, sizes, sizeof sizes);
        jiwasampu_quick(long_old, sizeof long_old, turned, sizeof turned, mode, ids, sizeof ids, sizes, sizeof sizes);
        jiwasampu_quick(four_old, sizeof four_old, four_new, sizeof four_new, mode, ids, sizeof ids, sizes, sizeof sizes);
    }
}

int main(void)
{
    check_replies();
    quick_replies();
    walk_replies();
    wide_lanes();
    odd_addresses();
    long_change();
    expect("509 rounds", long_check(0), 0, 509, 509, 0);

    size_t check = depth(run_checks), plan = depth(run_plans), quick = depth(run_quick), walk = depth(run_walks);
    printf("stack: check %zu bytes, plan %zu bytes, quick %zu bytes, walk %zu bytes, limit %d\n", check, plan, quick, walk,
           STACK_LIMIT);
    if (check >= STACK_LIMIT || plan >= STACK_LIMIT || quick >= STACK_LIMIT || walk >= STACK_LIMIT)
        faults++;
    return faults != 0;
}
