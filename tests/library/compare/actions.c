/* Action cancellation: what is accepted, against every other choice of the proposed actions. */
#include "compare.h"

enum { MOST_CHOSEN = 10 }; /* proposed actions of which all sets are compared */

bool comes_first(uint64_t one, uint64_t other)
{
    uint64_t differing = one ^ other, lowest = differing & (0 - differing);
    return (one & lowest) != 0;
}

void check_choices(const struct policy *policy, const struct epoch *epoch, action_set chosen)
{
    action_set all = proposed(policy, epoch), choice = 0;
    bool other = false, larger = false;
    if (size_of_set(all) > MOST_CHOSEN)
        return;
    do {
        if (choice != chosen && satisfies(policy, epoch, choice)) {
            if (!comes_first(chosen, choice))
                fail("kinohazel_decide", "another choice without a clash has the lowest action in which they differ");
            other = other || (choice & ~chosen) != 0;
            larger = larger || size_of_set(choice) > size_of_set(chosen);
        }
        choice = (choice - all) & all; /* the next subset */
    } while (choice != 0);
    tally.choosings[ALL_CHOICES]++;
    tally.choosings[OTHER_CHOICE] += other;
    tally.choosings[LARGER_CHOICE] += larger;
}
