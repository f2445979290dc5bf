#include "slow.hpp"
#include "families.hpp"
#include <algorithm>
#include <chrono>

namespace {

using Clock = std::chrono::steady_clock;

double since(Clock::time_point start) { return std::chrono::duration<double>(Clock::now() - start).count(); }

// The least of a few calls: what else the machine does only adds. A survey that is refused takes no time.
double time_of(const Survey &survey) {
    Lists lists(survey);
    double least = 1e9;
    for (int call = 0; call < 4; call++) {
        least = std::min(least, microseconds(by_corkgully, lists));
        if (lists.marks[0] > 1) return 0; // nothing was written
    }
    return least;
}

struct Found {
    double time;
    Survey survey;
};

// From the slowest of many of all families.
Found start(Random &random) {
    Found found{0, {}};
    for (int k = 0; k < 60; k++) {
        const auto &shape = SHAPES[random.below(SHAPES.size())];
        const auto &counts = COUNTS[random.below(COUNTS.size())];
        Survey survey = make(shape, counts, random);
        const double time = time_of(survey);
        if (time > found.time) found = {time, survey};
    }
    return found;
}

} // namespace

double microseconds(Way way, Lists &lists) {
    const auto start = Clock::now();
    way(lists);
    return 1e6 * since(start);
}

std::vector<Survey> slow_surveys(unsigned count, double seconds) {
    std::vector<Survey> surveys;
    for (unsigned seed = 1; seed <= count; seed++) {
        Random random(seed);
        Found found = start(random);
        const auto begun = Clock::now();
        for (unsigned tries = 1; since(begun) < seconds; tries++) {
            Survey other = near(found.survey, random);
            double time = time_of(other);
            // Timed again, so that a busy moment doesn't pass for a slow survey.
            if (time >= found.time) time = std::min(time, time_of(other));
            if (time >= found.time) found = {time, other};
            if (tries % 64 == 0) found.time = std::min(found.time, time_of(found.survey));
        }
        surveys.push_back(found.survey);
    }
    return surveys;
}
