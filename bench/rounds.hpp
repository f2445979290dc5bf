// The rounds of Specification 6 over any method of greatest flows. A network has a source that gives each group its weight where that is above 0, a
// sink that takes it where it is below, and an arc without limit from the end of each link to its start.
#pragma once
#include "survey.hpp"

// An arc that no cut goes through: above every sum of weights.
constexpr std::int64_t NO_LIMIT = std::int64_t(1) << 60;

// A Network is built of the lists once. It has
//   set_weight(g, weight)
//   flow(): the greatest flow's value
//   reach(marks): marks 1 those groups from which the sink can't be reached in what is left, and 0 the others
//   amount(k): what flows through the arc of link k
template <class Network> std::uint64_t rounds(Lists &lists) {
    Network network(lists);
    std::fill_n(lists.marks.begin(), lists.n, 1);
    for (std::uint64_t round = 1;; round++) {
        std::int64_t dead = 0, live = 0;
        for (unsigned g = 0; g < lists.n; g++) {
            if (lists.marks[g] == 1) {
                dead += lists.dead(g);
                live += lists.live(g);
            }
        }
        std::int64_t given = 0;
        for (unsigned g = 0; g < lists.n; g++) {
            const std::int64_t weight = lists.dead(g) * live - lists.live(g) * dead;
            network.set_weight(g, weight);
            if (weight > 0) given += weight;
        }
        const std::int64_t flow = network.flow();
        network.reach(lists.marks);
        if (flow == given) {
            for (unsigned k = 0; k < lists.e; k++) lists.put_amount(k, network.amount(k));
            return round << 16;
        }
    }
}
