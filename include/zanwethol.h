/* The proved library from C: link crates/exports/out/libexports.a (made by `rt lib` in crates/exports).
   Pointers must not be null (for an empty list any non-null pointer serves) and lists must not overlap.
   A leg may join a node to itself: then offset 0 and its full length are one place, the node.
   A refusal's number and place are told through number and place, 0 and 0 where nothing is refused; see README.md.
   Distances are one more than the metres, and 0 for 'no walk', 'beyond' or a refusal. */
#ifndef ZANWETHOL_H
#define ZANWETHOL_H

#include <stddef.h>
#include <stdint.h>

/* Puts one set's reports in order by leg, then by offset. */
void kc_lay_out(uint32_t *legs, size_t legs_len, uint32_t *offsets, size_t offsets_len, uint32_t *number, size_t *place);

/* Distances from a node to every node, as far as the bound, into answers, which must hold one for each node. */
void kc_distances_from(uint32_t nodes, const uint32_t *firsts, size_t firsts_len, const uint32_t *seconds,
                       size_t seconds_len, const uint32_t *lengths, size_t lengths_len, uint32_t source, uint32_t bound,
                       uint32_t *answers, size_t answers_len, uint32_t *number, size_t *place);

/* A row of distances for every node whose entry of wanted, which has exactly one for each node, is not 0, into a table of
   nodes times nodes entries. */
void kc_end_distances(uint32_t nodes, const uint32_t *firsts, size_t firsts_len, const uint32_t *seconds,
                      size_t seconds_len, const uint32_t *lengths, size_t lengths_len, uint32_t bound,
                      const uint32_t *wanted, size_t wanted_len, uint32_t *table, size_t table_len, uint32_t *number,
                      size_t *place);

uint64_t kc_node_distance(uint32_t nodes, const uint32_t *firsts, size_t firsts_len, const uint32_t *seconds,
                          size_t seconds_len, const uint32_t *lengths, size_t lengths_len, uint32_t u, uint32_t v,
                          uint32_t *number, size_t *place);

uint64_t kc_bounded_node_distance(uint32_t nodes, const uint32_t *firsts, size_t firsts_len, const uint32_t *seconds,
                                  size_t seconds_len, const uint32_t *lengths, size_t lengths_len, uint32_t bound,
                                  uint32_t u, uint32_t v, uint32_t *number, size_t *place);

/* The distance of two places, each a leg and an offset. */
uint64_t kc_location_distance(uint32_t nodes, const uint32_t *firsts, size_t firsts_len, const uint32_t *seconds,
                              size_t seconds_len, const uint32_t *lengths, size_t lengths_len, uint32_t leg1,
                              uint32_t offset1, uint32_t leg2, uint32_t offset2, uint32_t *number, size_t *place);

/* How many places lie at exactly the radius from a leg and offset. */
uint32_t kc_perimeter_count(uint32_t nodes, const uint32_t *firsts, size_t firsts_len, const uint32_t *seconds,
                            size_t seconds_len, const uint32_t *lengths, size_t lengths_len, uint32_t leg,
                            uint32_t offset, uint32_t radius, uint32_t *number, size_t *place);

/* Pair counts of every set at every threshold, by a range query, by numbers stored with the reports, or by marks that
   neighbouring reports share: the same counts. For each set in turn there is a count for each threshold in turn; answers
   must hold the number of sets (one more than the greatest set number, one with no reports) times the number of
   thresholds. Each takes some 1.5 MB of stack. */
void kc_range_counts(uint32_t nodes, const uint32_t *firsts, size_t firsts_len, const uint32_t *seconds,
                     size_t seconds_len, const uint32_t *lengths, size_t lengths_len, const uint32_t *sets,
                     size_t sets_len, const uint32_t *legs, size_t legs_len, const uint32_t *offsets,
                     size_t offsets_len, const uint32_t *thresholds, size_t thresholds_len, uint32_t *answers,
                     size_t answers_len, uint32_t *number, size_t *place);

void kc_augmentation_counts(uint32_t nodes, const uint32_t *firsts, size_t firsts_len, const uint32_t *seconds,
                            size_t seconds_len, const uint32_t *lengths, size_t lengths_len, const uint32_t *sets,
                            size_t sets_len, const uint32_t *legs, size_t legs_len, const uint32_t *offsets,
                            size_t offsets_len, const uint32_t *thresholds, size_t thresholds_len, uint32_t *answers,
                            size_t answers_len, uint32_t *number, size_t *place);

void kc_sharing_counts(uint32_t nodes, const uint32_t *firsts, size_t firsts_len, const uint32_t *seconds,
                       size_t seconds_len, const uint32_t *lengths, size_t lengths_len, const uint32_t *sets,
                       size_t sets_len, const uint32_t *legs, size_t legs_len, const uint32_t *offsets,
                       size_t offsets_len, const uint32_t *thresholds, size_t thresholds_len, uint32_t *answers,
                       size_t answers_len, uint32_t *number, size_t *place);

/* The stored numbers of a laid-out set: with each report, how many on its leg lie no farther from the leg's first end, and
   from its second end, itself and equals included. Each list must hold one for each report. */
void kc_augment(uint32_t nodes, const uint32_t *firsts, size_t firsts_len, const uint32_t *seconds, size_t seconds_len,
                const uint32_t *lengths, size_t lengths_len, const uint32_t *legs, size_t legs_len,
                const uint32_t *offsets, size_t offsets_len, uint32_t *near_first, size_t near_first_len,
                uint32_t *near_second, size_t near_second_len, uint32_t *number, size_t *place);

/* The six marks of two legs of a laid-out set at one threshold: by the routes from the first leg's first end to the
   second's first and second end, from its second end to both, and on one leg the reports below the own offset less the
   threshold and those not above it plus the threshold. positions holds the six lists one after the other, each with a
   position for every report of the first leg; moves holds the six sums of moves. 0 stands for 'no mark', one more than
   the number otherwise. The node distances are bounded by bound. */
void kc_cursors(uint32_t nodes, const uint32_t *firsts, size_t firsts_len, const uint32_t *seconds, size_t seconds_len,
                const uint32_t *lengths, size_t lengths_len, const uint32_t *legs, size_t legs_len,
                const uint32_t *offsets, size_t offsets_len, uint32_t leg1, uint32_t leg2, uint32_t threshold,
                uint32_t bound, uint32_t *positions, size_t positions_len, uint32_t *moves, size_t moves_len,
                uint32_t *number, size_t *place);

/* Readers of the three texts: how many legs, reports or thresholds were read. Lists of 1,024 legs, 8,192 reports and 64
   thresholds always suffice. */
size_t kc_read_network(const uint8_t *text, size_t text_len, uint32_t *firsts, size_t firsts_len, uint32_t *seconds,
                       size_t seconds_len, uint32_t *lengths, size_t lengths_len, uint32_t *nodes, uint32_t *number,
                       size_t *place);

size_t kc_read_events(const uint8_t *text, size_t text_len, uint32_t nodes, const uint32_t *firsts, size_t firsts_len,
                      const uint32_t *seconds, size_t seconds_len, const uint32_t *lengths, size_t lengths_len,
                      uint32_t *sets, size_t sets_len, uint32_t *legs, size_t legs_len, uint32_t *offsets,
                      size_t offsets_len, uint32_t *number, size_t *place);

size_t kc_read_thresholds(const uint8_t *text, size_t text_len, uint32_t *thresholds, size_t thresholds_len,
                          uint32_t *number, size_t *place);

#endif
