// Boost's push-relabel and its Boykov–Kolmogorov, over the graph that its own examples use.
#include "rounds.hpp"
#include <boost/graph/adjacency_list.hpp>
#include <boost/graph/boykov_kolmogorov_max_flow.hpp>
#include <boost/graph/push_relabel_max_flow.hpp>

namespace {

using namespace boost;
using Arc = adjacency_list_traits<vecS, vecS, directedS>::edge_descriptor;
using OfPoint = property<vertex_index_t, long,
                property<vertex_color_t, default_color_type,
                property<vertex_distance_t, long,
                property<vertex_predecessor_t, Arc>>>>;
using OfArc = property<edge_capacity_t, std::int64_t,
              property<edge_residual_capacity_t, std::int64_t,
              property<edge_reverse_t, Arc>>>;
using Graph = adjacency_list<vecS, vecS, directedS, OfPoint, OfArc>;

template <std::int64_t (*greatest)(Graph &, unsigned, unsigned)> class Network {
  public:
    explicit Network(const Lists &lists) : n(lists.n), graph(n + 2), reaches(n + 2) {
        arcs.reserve(lists.e + 2 * n);
        for (unsigned k = 0; k < lists.e; k++) join(lists.to(k), lists.from(k), NO_LIMIT);
        first = lists.e;
        for (unsigned g = 0; g < n; g++) {
            join(n, g, 0);
            join(g, n + 1, 0);
        }
        waiting.reserve(n + 2);
    }

    void set_weight(unsigned g, std::int64_t weight) {
        auto limits = get(edge_capacity, graph);
        limits[arcs[first + 2 * g]] = weight > 0 ? weight : 0;
        limits[arcs[first + 2 * g + 1]] = weight < 0 ? -weight : 0;
    }

    std::int64_t flow() { return greatest(graph, n, n + 1); }

    void reach(Bytes &marks) {
        auto left = get(edge_residual_capacity, graph);
        auto back = get(edge_reverse, graph);
        std::fill(reaches.begin(), reaches.end(), 0);
        waiting.assign(1, n + 1);
        reaches[n + 1] = 1;
        for (std::size_t at = 0; at < waiting.size(); at++) {
            auto [arc, end] = out_edges(waiting[at], graph);
            for (; arc != end; ++arc) {
                const unsigned start = target(*arc, graph);
                if (!reaches[start] && left[back[*arc]] > 0) {
                    reaches[start] = 1;
                    waiting.push_back(start);
                }
            }
        }
        for (unsigned g = 0; g < n; g++) marks[g] = reaches[g] ? 0 : 1;
    }

    std::int64_t amount(unsigned k) const { return NO_LIMIT - get(edge_residual_capacity, graph, arcs[k]); }

  private:
    void join(unsigned start, unsigned end, std::int64_t limit) {
        const Arc there = add_edge(start, end, graph).first, back = add_edge(end, start, graph).first;
        put(edge_reverse, graph, there, back);
        put(edge_reverse, graph, back, there);
        put(edge_capacity, graph, there, limit);
        put(edge_capacity, graph, back, 0);
        arcs.push_back(there);
    }

    unsigned n, first = 0;
    Graph graph;
    std::vector<Arc> arcs;
    std::vector<char> reaches;
    std::vector<unsigned> waiting;
};

std::int64_t push_relabel(Graph &graph, unsigned source, unsigned sink) {
    return push_relabel_max_flow(graph, source, sink);
}

std::int64_t boykov_kolmogorov(Graph &graph, unsigned source, unsigned sink) {
    return boykov_kolmogorov_max_flow(graph, source, sink);
}

} // namespace

std::uint64_t by_push_relabel(Lists &lists) { return rounds<Network<push_relabel>>(lists); }

std::uint64_t by_boykov_kolmogorov(Lists &lists) { return rounds<Network<boykov_kolmogorov>>(lists); }
