// A cheapest pair by the min-cost flow solvers of LEMON: two units over the network in which an arc that takes two routes
// stands twice, and its second unit costs one.
#include "pairs.hpp"
#include <lemon/capacity_scaling.h>
#include <lemon/network_simplex.h>
#include <lemon/static_graph.h>

namespace {

using Graph = lemon::StaticDigraph;

template <class Solver> bool shared_by(const Order &order, std::vector<int> &shared) {
    const std::vector<Arc> &arcs = *order.arcs;
    // The arcs in the order of their starts, which is how the solver's graph has them.
    struct Copy {
        int from, to, number, cost;
    };
    std::vector<std::vector<Copy>> by_start(order.places);
    for (size_t c = 0; c < arcs.size(); c++) {
        for (int k = 0; k < arcs[c].lanes; k++) {
            by_start[arcs[c].from].push_back({arcs[c].from, arcs[c].to, int(c), k});
        }
    }
    std::vector<Copy> copies;
    std::vector<std::pair<int, int>> ends;
    for (const auto &start : by_start) {
        for (const Copy &copy : start) {
            copies.push_back(copy);
            ends.push_back({copy.from, copy.to});
        }
    }
    Graph graph;
    graph.build(int(order.places), ends.begin(), ends.end());
    Graph::ArcMap<int> capacity(graph, 1), cost(graph);
    for (size_t i = 0; i < copies.size(); i++) {
        cost[graph.arc(int(i))] = copies[i].cost;
    }
    Solver solver(graph);
    solver.upperMap(capacity).costMap(cost);
    solver.stSupply(graph.node(int(order.from)), graph.node(int(order.to)), 2);
    if (solver.run() != Solver::OPTIMAL) {
        return false;
    }
    shared.clear();
    for (size_t i = 0; i < copies.size(); i++) {
        if (copies[i].cost == 1 && solver.flow(graph.arc(int(i))) == 1) {
            shared.push_back(copies[i].number);
        }
    }
    return true;
}

} // namespace

bool simplex_shared(const Order &order, std::vector<int> &shared) {
    return shared_by<lemon::NetworkSimplex<Graph>>(order, shared);
}

bool scaling_shared(const Order &order, std::vector<int> &shared) {
    return shared_by<lemon::CapacityScaling<Graph>>(order, shared);
}
