// LEMON's Preflow. Its first phase is enough for a cut, and in the last round, where all that is given arrives, for the amounts.
#include "rounds.hpp"
#include <lemon/preflow.h>
#include <lemon/smart_graph.h>
#include <optional>

namespace {

using Graph = lemon::SmartDigraph;
using Limits = Graph::ArcMap<long long>;

class Network {
  public:
    explicit Network(const Lists &lists) : n(lists.n), limits(graph), reaches(graph) {
        graph.reserveNode(n + 2);
        graph.reserveArc(lists.e + 2 * n);
        for (unsigned g = 0; g < n + 2; g++) graph.addNode();
        for (unsigned k = 0; k < lists.e; k++) join(lists.to(k), lists.from(k), NO_LIMIT);
        first = lists.e;
        for (unsigned g = 0; g < n; g++) {
            join(n, g, 0);
            join(g, n + 1, 0);
        }
        flows.emplace(graph, limits, point(n), point(n + 1));
        waiting.reserve(n + 2);
    }

    void set_weight(unsigned g, std::int64_t weight) {
        limits[Graph::arcFromId(first + 2 * g)] = weight > 0 ? weight : 0;
        limits[Graph::arcFromId(first + 2 * g + 1)] = weight < 0 ? -weight : 0;
    }

    std::int64_t flow() {
        flows->init();
        flows->startFirstPhase();
        return flows->flowValue();
    }

    void reach(Bytes &marks) {
        const auto &flow = flows->flowMap();
        for (unsigned g = 0; g < n + 2; g++) reaches[point(g)] = false;
        waiting.assign(1, point(n + 1));
        reaches[point(n + 1)] = true;
        for (std::size_t at = 0; at < waiting.size(); at++) {
            for (Graph::InArcIt a(graph, waiting[at]); a != lemon::INVALID; ++a) {
                if (flow[a] < limits[a]) reached(graph.source(a));
            }
            for (Graph::OutArcIt a(graph, waiting[at]); a != lemon::INVALID; ++a) {
                if (flow[a] > 0) reached(graph.target(a));
            }
        }
        for (unsigned g = 0; g < n; g++) marks[g] = reaches[point(g)] ? 0 : 1;
    }

    std::int64_t amount(unsigned k) const { return flows->flow(Graph::arcFromId(k)); }

  private:
    static Graph::Node point(int g) { return Graph::nodeFromId(g); }

    void join(int start, int end, std::int64_t limit) { limits[graph.addArc(point(start), point(end))] = limit; }

    void reached(Graph::Node point) {
        if (!reaches[point]) {
            reaches[point] = true;
            waiting.push_back(point);
        }
    }

    unsigned n, first = 0;
    Graph graph;
    Limits limits;
    Graph::NodeMap<bool> reaches;
    std::vector<Graph::Node> waiting;
    std::optional<lemon::Preflow<Graph, Limits>> flows;
};

} // namespace

std::uint64_t by_lemon(Lists &lists) { return rounds<Network>(lists); }
