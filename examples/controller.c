/*
 * A small controller. A tenant's path moves from the old route 1 2 3 to the new route 1 4 3, another one from 1 2 3 4 5 to
 * 1 4 3 2 5. It asks for the quick plan of each change, or where there is none for the ordinary plan, checks the plan and tells
 * what each switch is told in each round; it shows why another schedule is refused; and it follows a packet through one state.
 *
 *     cc -Iinclude examples/controller.c target/staticlib/libjiwasampu.a -o controller
 */
#include "jiwasampu.h"

#include <stdio.h>

enum { STRONG = 0, NONE = -1 };

/* Two bytes to an id, the lower first; lengths in bytes. */
struct change {
    const uint8_t *old_route;
    size_t old_length;
    const uint8_t *new_route;
    size_t new_length;
};

/* The ids of all rounds, one round after the other, and how many each round has. */
struct schedule {
    uint8_t ids[1024], sizes[1024];
    unsigned count, rounds;
};

struct reply {
    unsigned number, where, place, node;
};

static struct reply lanes(uint64_t r)
{
    struct reply reply = {r & 0xffff, r >> 16 & 0xffff, r >> 32 & 0xffff, r >> 48 & 0xffff};
    return reply;
}

static int entry(const uint8_t *list, size_t i)
{
    return list[2 * i] | list[2 * i + 1] << 8;
}

/* The id after a node on a route of `length` bytes. */
static int rule(const uint8_t *route, size_t length, int node)
{
    for (size_t i = 0; i + 1 < length / 2; i++)
        if (entry(route, i) == node)
            return entry(route, i + 1);
    return NONE;
}

static void print_refusal(struct reply r)
{
    printf("refused: %u, where %u, place %u\n", r.number, r.where, r.place);
}

static void print_route(const char *before, const uint8_t *route, size_t length)
{
    printf("%s", before);
    for (size_t i = 0; i < length / 2; i++)
        printf(" %d", entry(route, i));
}

static void print_set(const uint8_t set[64])
{
    const char *before = "{";
    for (unsigned id = 0; id < 512; id++)
        if (set[id / 8] >> id % 8 & 1) {
            printf("%s%u", before, id);
            before = ",";
        }
    puts("}");
}

/* What each node of each round is told. */
static void print_rounds(const struct change *c, const struct schedule *schedule)
{
    size_t at = 0;
    for (unsigned t = 0; t < schedule->rounds; t++) {
        printf("round %u:", t + 1);
        for (int k = entry(schedule->sizes, t); k > 0; k--, at++) {
            int node = entry(schedule->ids, at);
            int from = rule(c->old_route, c->old_length, node), to = rule(c->new_route, c->new_length, node);
            if (to == NONE)
                printf(" node %d removes its rule to %d;", node, from);
            else if (from == NONE)
                printf(" node %d installs a rule to %d;", node, to);
            else
                printf(" node %d switches from %d to %d;", node, from, to);
        }
        puts(" wait for all replies");
    }
}

/* The quick plan of the change, or where a switch stands in its way the ordinary one. Returns whether there is a plan. */
static int plan(const struct change *c, struct schedule *schedule)
{
    const char *kind = "quick plan";
    struct reply r = lanes(jiwasampu_quick(c->old_route, c->old_length, c->new_route, c->new_length, STRONG, schedule->ids,
                                           sizeof schedule->ids, schedule->sizes, sizeof schedule->sizes));
    if (r.number == 19) {
        printf("no quick plan: node %u goes backward in both orders; the ordinary plan is used\n", r.place);
        kind = "ordinary plan";
        r = lanes(jiwasampu_plan(c->old_route, c->old_length, c->new_route, c->new_length, STRONG, schedule->ids,
                                 sizeof schedule->ids, schedule->sizes, sizeof schedule->sizes));
    }
    if (r.number != 0) {
        print_refusal(r);
        return 0;
    }
    schedule->rounds = r.where;
    schedule->count = r.place;
    printf("%s: %u rounds for %u nodes\n", kind, schedule->rounds, schedule->count);
    return 1;
}

/* Returns whether the schedule is safe. */
static int check(const struct change *c, const struct schedule *schedule)
{
    uint8_t set[64];
    struct reply r = lanes(jiwasampu_check(c->old_route, c->old_length, c->new_route, c->new_length, STRONG, schedule->ids,
                                           2 * schedule->count, schedule->sizes, 2 * schedule->rounds, set, sizeof set));
    if (r.number == 0) {
        printf("safe: %u rounds, %u nodes are due\n", r.where, r.place);
    } else if (r.number == 16 || r.number == 17) {
        printf("refused: %u, packets %s in round %u while of its nodes exactly these have changed: ", r.number,
               r.number == 16 ? "drop" : "loop", r.where);
        print_set(set);
    } else {
        print_refusal(r);
    }
    return r.number == 0;
}

/* Plans the change, checks the plan and prints it. Returns whether all went well. */
static int prepare(const struct change *c)
{
    static struct schedule planned;
    print_route("from", c->old_route, c->old_length);
    print_route(" to", c->new_route, c->new_length);
    puts("");
    if (!plan(c, &planned) || !check(c, &planned))
        return 0;
    print_rounds(c, &planned);
    return 1;
}

static void walk(const struct change *c, const uint8_t set[64])
{
    struct reply r = lanes(jiwasampu_walk(c->old_route, c->old_length, c->new_route, c->new_length, set, 64));
    if (r.number != 0)
        print_refusal(r);
    else if (r.where == 0)
        printf("a packet arrives, hops made: %u\n", r.place);
    else
        printf("a packet %s at node %u, hops made: %u\n", r.where == 1 ? "is dropped" : "loops", r.node, r.place);
}

int main(void)
{
    static const uint8_t short_old[] = {1, 0, 2, 0, 3, 0}, short_new[] = {1, 0, 4, 0, 3, 0};
    static const uint8_t long_old[] = {1, 0, 2, 0, 3, 0, 4, 0, 5, 0}, long_new[] = {1, 0, 4, 0, 3, 0, 2, 0, 5, 0};
    static const struct change first = {short_old, sizeof short_old, short_new, sizeof short_new};
    static const struct change second = {long_old, sizeof long_old, long_new, sizeof long_new};
    static const struct schedule hasty = {.ids = {1, 0, 4, 0, 2, 0}, .sizes = {2, 0, 1, 0}, .count = 3, .rounds = 2};
    static const uint8_t only_1[64] = {1 << 1};

    if (!prepare(&first))
        return 1;

    puts("another schedule: {1,4} {2}");
    check(&first, &hasty);

    puts("a state: only node 1 has changed");
    walk(&first, only_1);

    return prepare(&second) ? 0 : 1;
}
