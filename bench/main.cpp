// The table: for each family the microseconds a survey of four ways of choosing, all with the same rounds, marks and right claims.
#include "families.hpp"
#include "slow.hpp"
#include "stack.hpp"
#include <algorithm>
#include <array>
#include <cstdio>
#include <cstdlib>

namespace {

constexpr std::size_t WAYS = 4;
const std::array<Way, WAYS> ways = {by_corkgully, by_lemon, by_push_relabel, by_boykov_kolmogorov};
const std::array<const char *, WAYS> names = {"corkgully", "LEMON", "Boost PR", "Boost BK"};
constexpr int TURNS = 9;

struct Family {
    std::string name;
    std::vector<Survey> surveys;
};

using Times = std::array<double, WAYS>;

// All ways have the chooser's rounds and marks, and corkgully_check accepts each one's claim. The rounds.
std::uint64_t compare(const Family &family, const Survey &survey) {
    Lists first(survey);
    const std::uint64_t answer = by_corkgully(first);
    for (std::size_t way = 0; way < WAYS; way++) {
        Lists lists(survey);
        const bool same = ways[way](lists) == answer && lists.marks == first.marks;
        if (answer % 65536 != 0 || !same || !accepted(lists)) {
            std::printf("%s: the answer of %s is not right\n", family.name.c_str(), names[way]);
            std::exit(1);
        }
    }
    return answer >> 16;
}

// Turn about, and of each way's turns the least.
Times least_times(const Survey &survey) {
    Lists lists(survey);
    Times least;
    least.fill(1e9);
    for (int turn = 0; turn < TURNS; turn++) {
        for (std::size_t way = 0; way < WAYS; way++) least[way] = std::min(least[way], microseconds(ways[way], lists));
    }
    return least;
}

// One line of the table. The ratios.
Times print_row(const Family &family) {
    Times mean{}, ratios{};
    double rounds = 0;
    for (const Survey &survey : family.surveys) {
        rounds += compare(family, survey);
        const Times times = least_times(survey);
        for (std::size_t way = 0; way < WAYS; way++) mean[way] += times[way] / family.surveys.size();
    }
    std::printf("%-18s %6.1f ", family.name.c_str(), rounds / family.surveys.size());
    for (double time : mean) std::printf(" %9.1f", time);
    std::printf(" ");
    for (std::size_t way = 1; way < WAYS; way++) std::printf(" %8.2f", ratios[way] = mean[0] / mean[way]);
    std::printf("\n");
    std::fflush(stdout);
    return ratios;
}

std::vector<Family> families(unsigned surveys, double seconds) {
    std::vector<Family> all;
    for (const auto &shape : SHAPES) {
        for (const auto &counts : COUNTS) {
            Random random(all.size() + 1);
            Family family{shape + ", " + counts, {}};
            for (unsigned k = 0; k < surveys; k++) family.surveys.push_back(make(shape, counts, random));
            all.push_back(family);
        }
    }
    all.push_back({"searched", slow_surveys(3, seconds)});
    return all;
}

} // namespace

// Told the surveys of a family, and the seconds of each search.
int main(int, char **words) {
    const unsigned surveys = std::atoi(words[1]);
    const double seconds = std::atof(words[2]);
    const auto all = families(surveys, seconds);

    std::printf("%u groups, %u links; microseconds a survey; then corkgully's time in parts of the others'\n", GROUPS, LINKS);
    std::printf("%-18s %6s ", "family", "rounds");
    for (const char *name : names) std::printf(" %9s", name);
    std::printf(" ");
    for (std::size_t way = 1; way < WAYS; way++) std::printf(" %8s", names[way]);
    std::printf("\n");
    Times most{};
    for (const Family &family : all) {
        const Times ratios = print_row(family);
        for (std::size_t way = 1; way < WAYS; way++) most[way] = std::max(most[way], ratios[way]);
    }
    std::printf("%-66s ", "at most");
    for (std::size_t way = 1; way < WAYS; way++) std::printf(" %8.2f", most[way]);
    std::printf("\n");

    std::vector<Survey> each;
    for (const Family &family : all) each.push_back(family.surveys[0]);
    if (const unsigned long bytes = stack_of(each)) {
        std::printf("stack of corkgully_choose: %lu bytes\n", bytes);
    } else {
        std::printf("stack of corkgully_choose: more than a thread of 64 KiB has\n");
        return 1;
    }
}
