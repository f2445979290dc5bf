#include "families.hpp"
#include <algorithm>
#include <numeric>

const std::vector<std::string> SHAPES = {"random", "banded", "layered", "chained", "two-sided"};

// "apart": what points has the live objects, and what is pointed to the dead ones, so that each set is paid for by others.
const std::vector<std::string> COUNTS = {"any", "small", "apart"};

std::uint64_t Random::next() {
    std::uint64_t z = state += 0x9e3779b97f4a7c15;
    z = (z ^ z >> 30) * 0xbf58476d1ce4e5b9;
    z = (z ^ z >> 27) * 0x94d049bb133111eb;
    return z ^ z >> 31;
}

namespace {

template <class Values> void shuffle(Values &values, Random &random) {
    for (unsigned k = values.size(); k > 1; k--) std::swap(values[k - 1], values[random.below(k)]);
}

// Whether the shape allows a link between two places of the order.
bool joins(const std::string &shape, unsigned low, unsigned high) {
    if (shape == "banded") return high - low <= 12;
    if (shape == "layered") return high / 16 == low / 16 + 1;
    if (shape == "chained") return high / 8 <= low / 8 + 1;
    if (shape == "two-sided") return low < 64 && high >= 64;
    return true;
}

Pair pair(const std::string &counts, unsigned place, Random &random) {
    if (counts == "small") return {random.below(10), random.below(10)};
    if (counts == "apart") {
        if (random.below(8) == 0) return {random.below(10), random.below(10)};
        const unsigned count = random.below(MOST_COUNT + 1);
        return place < GROUPS / 2 ? Pair{0, count} : Pair{count, 0};
    }
    return {random.below(MOST_COUNT + 1), random.below(MOST_COUNT + 1)};
}

unsigned extreme(Random &random) {
    switch (random.below(5)) {
    case 0: return 0;
    case 1: return random.below(10);
    case 2: return MOST_COUNT;
    case 3: return 1u << random.below(20);
    default: return random.below(MOST_COUNT + 1);
    }
}

// One link goes, another comes.
void move_link(Survey &survey, Random &random) {
    auto &links = survey.links;
    const unsigned k = random.below(links.size());
    Pair link = links[k];
    const unsigned which = random.below(3);
    if (which != 1) link.first = random.below(survey.groups.size());
    if (which != 2) link.second = random.below(survey.groups.size());
    if (std::binary_search(links.begin(), links.end(), link)) return;
    links.erase(links.begin() + k);
    links.insert(std::lower_bound(links.begin(), links.end(), link), link);
}

} // namespace

Survey make(const std::string &shape, const std::string &counts, Random &random) {
    // All links go up in one order of the groups, so that they have no cycle.
    std::vector<unsigned> order(GROUPS);
    std::iota(order.begin(), order.end(), 0u);
    shuffle(order, random);
    Survey survey;
    for (unsigned high = 0; high < GROUPS; high++) {
        for (unsigned low = 0; low < high; low++) {
            if (joins(shape, low, high)) survey.links.emplace_back(order[low], order[high]);
        }
    }
    shuffle(survey.links, random);
    survey.links.resize(LINKS);
    std::sort(survey.links.begin(), survey.links.end());
    survey.groups.resize(GROUPS);
    for (unsigned place = 0; place < GROUPS; place++) survey.groups[order[place]] = pair(counts, place, random);
    return survey;
}

Survey near(const Survey &survey, Random &random) {
    Survey other = survey;
    for (unsigned times = 1 + random.below(4); times > 0; times--) {
        Pair &group = other.groups[random.below(GROUPS)];
        switch (random.below(7)) {
        case 0: group.first = extreme(random); break;
        case 1: group.second = extreme(random); break;
        case 2: group = {extreme(random), extreme(random)}; break;
        case 3: std::swap(group, other.groups[random.below(GROUPS)]); break;
        default: move_link(other, random);
        }
    }
    return other;
}
