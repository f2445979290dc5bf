// A survey as the lists that cross the boundary, and what every way of choosing is: rounds and marks out, amounts written.
#pragma once
#include <cstdint>
#include <cstring>
#include <utility>
#include <vector>

constexpr unsigned GROUPS = 128;
constexpr unsigned LINKS = 1024;
constexpr unsigned MOST_COUNT = 1000000;

using Pair = std::pair<unsigned, unsigned>;

// Groups are (dead, live), links (from, to), ascending and without a cycle.
struct Survey {
    std::vector<Pair> groups;
    std::vector<Pair> links;
};

using Bytes = std::vector<std::uint8_t>;

// The lists of a call: 8 bytes a group, a link and an amount, one a mark.
struct Lists {
    std::uint64_t n, e;
    Bytes groups, links, marks, amounts;

    explicit Lists(const Survey &survey)
        : n(survey.groups.size()), e(survey.links.size()), groups(8 * GROUPS), links(8 * LINKS),
          marks(GROUPS, 9), amounts(8 * LINKS) {
        put(groups, survey.groups);
        put(links, survey.links);
    }

    unsigned dead(unsigned g) const { return word(groups, 8 * g); }
    unsigned live(unsigned g) const { return word(groups, 8 * g + 4); }
    unsigned from(unsigned k) const { return word(links, 8 * k); }
    unsigned to(unsigned k) const { return word(links, 8 * k + 4); }
    void put_amount(unsigned k, std::int64_t amount) { std::memcpy(&amounts[8 * k], &amount, 8); }

  private:
    // x86-64 has the low byte first, as the lists do.
    static unsigned word(const Bytes &list, unsigned at) {
        unsigned x;
        std::memcpy(&x, &list[at], 4);
        return x;
    }
    static void put(Bytes &list, const std::vector<Pair> &pairs) {
        for (std::size_t k = 0; k < pairs.size(); k++) {
            std::memcpy(&list[8 * k], &pairs[k].first, 4);
            std::memcpy(&list[8 * k + 4], &pairs[k].second, 4);
        }
    }
};

// The answer number of the boundary: 65,536·rounds, or a refusal.
using Way = std::uint64_t (*)(Lists &);

std::uint64_t by_corkgully(Lists &lists);
std::uint64_t by_lemon(Lists &lists);
std::uint64_t by_push_relabel(Lists &lists);
std::uint64_t by_boykov_kolmogorov(Lists &lists);

// Whether corkgully_check accepts the claim in the lists.
bool accepted(const Lists &lists);
