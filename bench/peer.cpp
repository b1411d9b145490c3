// The peers' surveys: by scans over one label per run, by a priority queue, and by a graph library.
#include "graph.h"

namespace {

template <class Cost>
void fill_board(const Map& map, std::uint8_t home, const std::vector<Place<Cost>>& table, std::array<Place<Cost>, points>& board) {
    board.fill({});
    for (std::size_t r = 0; r < map.runs.size(); ++r) {
        auto& place = board[map.runs[r].head];
        if (table[r].cost < place.cost) place = {table[r].cost, static_cast<std::uint16_t>(r)};
    }
    board[home] = {0, no_run};
}

template <template <class, class> class Search>
bool surveys(const Run* runs, std::size_t run_count, const Setting* settings, std::size_t setting_count, std::uint8_t homes,
             std::uint32_t* costs, std::size_t cost_count) {
    if (homes > points || cost_count < points * homes) return false;
    Map map;
    std::for_each_n(runs, run_count, [&map](const Run& run) { map.lay(run); });
    PairRule rule;
    std::for_each_n(settings, setting_count, [&rule](const Setting& s) { rule.settings[s.arriving][s.leaving] = s.setting; });
    Search<Time, PairRule> search(map, rule);
    std::array<Place<Time::Cost>, points> board;
    for (std::uint8_t home = 0; home < homes; ++home) {
        fill_board(map, home, search.survey(home), board);
        std::transform(board.begin(), board.end(), costs + points * home, [](const auto& place) { return place.cost; });
    }
    return true;
}

}  // namespace

Surveys* const scan_surveys = surveys<Scan>;
Surveys* const queue_surveys = surveys<Queue>;
#ifdef HAS_BOOST_GRAPH
Surveys* const graph_surveys = surveys<Graph>;
#else
Surveys* const graph_surveys = nullptr;
#endif
