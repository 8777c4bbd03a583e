/*
 * Jiwasampu: the calls for a controller written in C. Link with libjiwasampu.a (x86-64 Linux).
 *
 * A carrier's switches change from an old route to a new one in rounds. While a round is under way any subset of its switches
 * has changed. `jiwasampu_check` says whether a schedule of rounds is safe, that is whether no such state drops or loops
 * packets, and names one that does. `jiwasampu_plan` makes a schedule that is; `jiwasampu_quick` makes one of at most four
 * rounds that is, or refuses. `jiwasampu_walk` follows a packet through one state.
 *
 * WHAT IS GIVEN
 *
 * Node ids are 0 to 511. Every list is a slice of bytes: a pointer, and right after it the slice's length in bytes (never in
 * entries).
 *
 *   route   A list of ids, from the source to the destination. An id is two bytes, the lower byte first.
 *   ids     The ids of all rounds, one round after the other, each round's rising. Two bytes to an id, the lower byte first.
 *   sizes   The number of ids in each round. Two bytes to a size, the lower byte first.
 *   set     64 bytes: eight words of eight bytes, the lowest byte first. Id i is bit i mod 64 of word i / 64, which is
 *           bit i mod 8 of byte i / 8.
 *
 * Any bytes may be given; whatever is wrong with them has a definite reply. What a caller has to see to is C's part only:
 *
 *   - Each pointer is good for its length: so many bytes can be read, and also written where the slice is not const.
 *   - A slice that is not const overlaps no other slice of the same call. Those that are const may overlap, or be the same.
 *   - Nothing else writes a slice while the call runs, and nothing else reads one that is not const.
 *   - An empty slice (length 0) may have a null pointer.
 *   - Slices need no alignment.
 *
 * THE REPLY
 *
 * A call returns one number that holds four lanes of 16 bits:
 *
 *   number  reply & 0xffff           0 is yes, anything else a refusal
 *   where   reply >> 16 & 0xffff
 *   place   reply >> 32 & 0xffff
 *   node    reply >> 48
 *
 * A lane that would not fit (in lists of more than 65,535 entries) holds 65,535. What the lanes of a yes say stands at each
 * call. A refusal has these, and node 0:
 *
 *   number  given when                                               where   place
 *      1    a slice has a length that the call does not take         0       0
 *      4    a route does not have 2 to 256 ids                       route   0
 *      5    a route has an id over 511                               route   index
 *      6    a route has an id again                                  route   index of the first repeat
 *      7    the routes do not have the same first and last id        0       0 if the first ids differ, else 1
 *      8    the mode is over 1                                       0       0
 *      9    the sizes do not add up to the number of ids             0       0
 *     10    a round is empty                                         round   0
 *     11    an id is not above the one before it in its round        round   index
 *     12    an id is not due                                         round   index
 *           or the given set has an id that is not due               0       the lowest such id
 *     13    an id stands in an earlier round already                 round   index
 *     14    a due id stands in no round                              0       the lowest such id
 *     15    as 16 or 17, but the set to be written would be empty:   round   0
 *           the round begins in a state that drops or loops
 *     16    a state of a round drops                                 round   number of ids in the set written
 *     17    a state of a round loops                                 round   number of ids in the set written
 *     19    a switch goes backward in both orders                    0       the lowest such id
 *
 * Route 1 is the old, 2 the new. Rounds count from 1. An index counts from 0; that of an id in a schedule counts over all
 * rounds. Of all refusals that apply the lowest number is given, and within one number the old route before the new, then the
 * first place; but 15 to 17 are given for the first bad round alone, 17 only where no state of that round drops.
 *
 * ALL CALLS
 *
 * A call always returns. It keeps nothing from one call to the next, allocates nothing, does no input or output and calls
 * nothing but memcpy and memset, so threads may call at the same time where no slice that is written is shared. A call needs
 * less than 16 KiB of stack (jiwasampu_check and jiwasampu_plan take about 9 KiB, jiwasampu_quick about 7 KiB, jiwasampu_walk
 * about 4.5 KiB).
 *
 * Every reply, and what a call leaves in memory, is proved for all inputs: CheckCall, PlanCall, QuickCall and WalkCall in
 * crates/jiwasampu/specs/Lanes.antt say what, and crates/jiwasampu/proofs/OneReply.antt that no second reply fits.
 */
#ifndef JIWASAMPU_H
#define JIWASAMPU_H

#include <stddef.h>
#include <stdint.h>

#ifdef __cplusplus
extern "C" {
#endif

/*
 * Checks a schedule, whoever made it.
 *
 *   old_route, new_route   the routes
 *   mode                   which loops count: 0 strong, 1 relaxed
 *   ids, sizes             the schedule; both are empty where the routes are equal
 *   set                    lent, 64 bytes or more: where 16 and 17 write the changed nodes of the round
 *
 * A node's old rule is the id after it on the old route, its new rule the id after it on the new one; a node that is not on the
 * route, and the destination, have none. A node is due when its two rules differ. A schedule has each due node in exactly one
 * round, and no other id.
 *
 * A state of a round has all earlier rounds changed, any subset of the round, and no later round. It drops when a packet from
 * the source comes to a node other than the destination that has no rule. It loops, strong, when the rules of all nodes
 * together hold a cycle anywhere; relaxed, when a packet from the source comes to a node a second time.
 *
 * Yes: number is 0, where the number of rounds, place the number of due nodes, node 0. No state of any round drops or loops.
 * Nor does a packet that is on its way while switches change, if it enters after all earlier rounds have changed and no
 * further round begins during its trip.
 *
 * Refused: 1 or 4 to 17. 1 is given when old_route, new_route, ids or sizes has an odd length, or set fewer than 64 bytes.
 *
 * Memory: 16 and 17 write the first 64 bytes of set: the subset of the round (where) whose state drops (16) or loops (17). Of
 * all subsets that do so, it is the one that lacks the lowest id in which it differs from any other. Every other reply, yes or
 * refusal, leaves set as it was, and what lies past its first 64 bytes is never changed. What set held before does not matter.
 */
uint64_t jiwasampu_check(const uint8_t *old_route, size_t old_route_length, const uint8_t *new_route, size_t new_route_length,
                         uint16_t mode, const uint8_t *ids, size_t ids_length, const uint8_t *sizes, size_t sizes_length,
                         uint8_t *set, size_t set_length);

/*
 * Plans a change: one plan for each change and mode. First round: all installs, if there are any. Last round: all removes, if
 * there are any. Between them the switches: for each round they are tried from the destination backward along the new route,
 * and each one joins if the round so far together with it still passes the check in this mode; otherwise it waits for the next
 * round.
 *
 *   old_route, new_route   the routes
 *   mode                   which loops count: 0 strong, 1 relaxed
 *   ids                    lent, 1,024 bytes or more: where the ids of the rounds are written, one round after the other
 *   sizes                  lent, 1,024 bytes or more: where the sizes of the rounds are written
 *
 * Yes: number is 0, where the number of rounds, place the number of ids written, node 0. There is one for every pair of good
 * routes, with at most two rounds more than nodes that go from one rule to another. jiwasampu_check says yes to what is
 * written, with the same two numbers, in the same mode.
 *
 * Refused: 1 or 4 to 8. 1 is given when old_route or new_route has an odd length, or ids or sizes fewer than 1,024 bytes.
 *
 * Memory: a yes writes the first 2 * place bytes of ids and the first 2 * where bytes of sizes; what lies past them is kept. A
 * refusal changes nothing. What ids and sizes held before does not matter.
 */
uint64_t jiwasampu_plan(const uint8_t *old_route, size_t old_route_length, const uint8_t *new_route, size_t new_route_length,
                        uint16_t mode, uint8_t *ids, size_t ids_length, uint8_t *sizes, size_t sizes_length);

/*
 * Plans a change with at most four rounds, or refuses. First round: all installs, if there are any. Last round: all removes, if
 * there are any. Between them the switches, the nodes that go from one rule to another: those with a positive old-order jump in
 * one round, and the rest in a second; a round that would be empty is left out. The rounds are the same in either mode.
 *
 *   old_route, new_route   the routes
 *   mode                   which loops count: 0 strong, 1 relaxed
 *   ids                    lent, 1,024 bytes or more: where the ids of the rounds are written, one round after the other
 *   sizes                  lent, 1,024 bytes or more: where the sizes of the rounds are written
 *
 * For a node on both routes, other than the destination, the next meeting node along a route is the first later node there that
 * is on both. The old-order jump is the position on the old route of the next meeting node along the new route, less the node's
 * own position there; the new-order jump is the same with the two routes exchanged. A jump is never 0, and goes backward when
 * it is negative.
 *
 * Yes: number is 0, where the number of rounds, place the number of ids written, node 0.
 *
 * Refused: 1, 4 to 8 or 19. 1 is given when old_route or new_route has an odd length, or ids or sizes fewer than 1,024 bytes. 19
 * is given when a switch goes backward in both orders; jiwasampu_plan has a plan for such a change, and no schedule of this form
 * passes, in either mode, with the switches in two rounds.
 *
 * What is written is what jiwasampu_plan writes for the same change, and jiwasampu_check says yes to it in both modes.
 *
 * Memory: a yes writes the first 2 * place bytes of ids and the first 2 * where bytes of sizes; what lies past them is kept. A
 * refusal changes nothing. What ids and sizes held before does not matter.
 */
uint64_t jiwasampu_quick(const uint8_t *old_route, size_t old_route_length, const uint8_t *new_route, size_t new_route_length,
                         uint16_t mode, uint8_t *ids, size_t ids_length, uint8_t *sizes, size_t sizes_length);

/*
 * Follows a packet from the source in one state: the nodes of the set use their new rules, all others their old ones.
 *
 *   old_route, new_route   the routes
 *   set                    the nodes that have changed, exactly 64 bytes
 *
 * Yes: number is 0, place the hops made, and
 *
 *   where 0   arrived at the destination; node is 0
 *   where 1   dropped; node is the node without a rule that it came to
 *   where 2   looped; node is the first node that it came to a second time, and the hop back is counted
 *
 * Refused: 1, 4 to 7 or 12. 1 is given when old_route or new_route has an odd length, or set is not exactly 64 bytes long.
 *
 * Memory: nothing is written.
 */
uint64_t jiwasampu_walk(const uint8_t *old_route, size_t old_route_length, const uint8_t *new_route, size_t new_route_length,
                        const uint8_t *set, size_t set_length);

#ifdef __cplusplus
}
#endif

#endif
