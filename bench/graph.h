// The same search by a graph library, Boost Graph, where it is installed.
#pragma once
#include "search.h"

#if __has_include(<boost/graph/dijkstra_shortest_paths.hpp>)
#define HAS_BOOST_GRAPH 1
#include <boost/graph/adjacency_list.hpp>
#include <boost/graph/dijkstra_shortest_paths.hpp>

// A vertex for each run, and one for the home. An edge for each joint that is not barred, weighted by the penalty and the time of the
// run that follows, made once for a rig; and one from the home to each run that leaves it, made for each survey.
template <class Kind, class Rule>
class Graph {
    using Cost = typename Kind::Cost;
    using Weight = boost::property<boost::edge_weight_t, Cost>;

    const Map& map;
    const std::size_t home_vertex;  // the runs have their numbers
    boost::adjacency_list<boost::vecS, boost::vecS, boost::directedS, boost::no_property, Weight> net;
    std::vector<Cost> costs;
    std::vector<std::size_t> before;
    std::vector<Place<Cost>> table;

public:
    Graph(const Map& map, const Rule& rule)
        : map(map), home_vertex(map.runs.size()), net(home_vertex + 1), costs(home_vertex + 1), before(home_vertex + 1), table(home_vertex) {
        for (std::size_t q = 0; q < map.runs.size(); ++q) {
            if (map.runs[q].struck) continue;
            for (const auto r : map.leaving[map.runs[q].head]) {
                const auto weight = follow<Kind>(rule, map.runs[q], 0, map.runs[r]);
                if (weight != absent<Cost>) boost::add_edge(q, r, Weight(weight), net);
            }
        }
    }

    const std::vector<Place<Cost>>& survey(std::uint8_t home) {
        boost::clear_out_edges(home_vertex, net);
        for (const auto r : map.leaving[home]) boost::add_edge(home_vertex, r, Weight(begin_by<Kind>(map.runs[r])), net);
        boost::dijkstra_shortest_paths(net, home_vertex, boost::distance_map(costs.data()).predecessor_map(before.data()));
        for (std::size_t r = 0; r < table.size(); ++r)
            table[r] = {costs[r], before[r] == home_vertex || costs[r] == absent<Cost> ? no_run : static_cast<std::uint16_t>(before[r])};
        return table;
    }
};
#endif
