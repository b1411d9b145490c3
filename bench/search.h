// A map, kinds and rules in plain C++, and two searches over them: what the surveys of peer.cpp and the player of player.cpp share.
#pragma once
#include "rig.h"

#include <algorithm>
#include <array>
#include <functional>
#include <limits>
#include <queue>
#include <vector>

constexpr std::uint16_t no_run = UINT16_MAX;

// No walk costs so much, so an absent place needs no tag.
template <class Cost>
constexpr Cost absent = std::numeric_limits<Cost>::max();

// The least cost of a run's or a point's walks, and the run by which it is reached.
template <class Cost>
struct Place {
    Cost cost = absent<Cost>;
    std::uint16_t run = no_run;
};

struct Laid : Run {
    bool struck = false;
};

struct Map {
    std::vector<Laid> runs;                                    // in the order in which they were laid
    std::array<std::vector<std::uint16_t>, points> leaving{};  // by tail, those that are not struck

    void lay(const Run& run) {
        leaving[run.tail].push_back(static_cast<std::uint16_t>(runs.size()));
        runs.push_back({run});
    }

    void strike(std::uint16_t run) {
        runs[run].struck = true;
        std::erase(leaving[runs[run].tail], run);
    }
};

// No sum of a walk that repeats no run comes near the top of its type, so these need no stop.
struct Time {
    using Cost = std::uint32_t;
    static Cost along(Cost cost, const Run& run) { return cost + run.time; }
    static Cost over(Cost cost, std::uint16_t penalty, bool) { return cost + penalty; }
};

struct Strain {
    using Cost = std::uint8_t;
    static Cost along(Cost cost, const Run& run) { return std::max(cost, run.strain); }
    static Cost over(Cost cost, std::uint16_t, bool) { return cost; }
};

struct HandOvers {
    using Cost = std::uint64_t;
    static Cost along(Cost cost, const Run& run) { return cost + run.time; }
    static Cost over(Cost cost, std::uint16_t penalty, bool differ) { return cost + penalty + (differ ? Cost{1} << 32 : 0); }
};

// Every point and winch that is asked about is that of a laid run, so these test no range.
struct FlatRule {
    std::uint16_t setting = 0;
    std::uint16_t ask(std::uint8_t, std::uint8_t arriving, std::uint8_t leaving) const { return arriving == leaving ? 0 : setting; }
};

struct PointRule {
    std::array<std::uint16_t, points> settings{};
    std::uint16_t ask(std::uint8_t point, std::uint8_t arriving, std::uint8_t leaving) const {
        return arriving == leaving ? 0 : settings[point];
    }
};

// The settings of a winch with itself stay 0.
struct PairRule {
    std::array<std::array<std::uint16_t, winches>, winches> settings{};
    std::uint16_t ask(std::uint8_t, std::uint8_t arriving, std::uint8_t leaving) const { return settings[arriving][leaving]; }
};

// The cost of the walk of this run alone.
template <class Kind>
auto begin_by(const Laid& run) {
    return Kind::along(0, run);
}

// The cost of a walk of that cost and last run once `run` follows; absent where the joint is barred.
template <class Kind, class Rule>
auto follow(const Rule& rule, const Laid& last, typename Kind::Cost cost, const Laid& run) {
    const auto penalty = rule.ask(last.head, last.winch, run.winch);
    if (penalty == barred) return absent<typename Kind::Cost>;
    return Kind::along(Kind::over(cost, penalty, last.winch != run.winch), run);
}

// Both searches keep their memory, and the map and the rule may change between searches.

// One label per run: a scan for the next waiting run, then a scan for the runs that follow it.
template <class Kind, class Rule>
class Scan {
    using Cost = typename Kind::Cost;

    const std::vector<Laid>& runs;
    const Rule& rule;
    std::vector<Place<Cost>> table;
    std::vector<unsigned char> taken;

    std::size_t next_waiting() const {
        std::size_t next = no_run;
        auto least = absent<Cost>;
        for (std::size_t r = 0; r < runs.size(); ++r)
            if (!taken[r] && table[r].cost < least) {
                least = table[r].cost;
                next = r;
            }
        return next;
    }

    void relax(std::size_t from) {
        const Laid last = runs[from];
        const auto cost = table[from].cost;
        for (std::size_t r = 0; r < runs.size(); ++r) {
            const Laid& run = runs[r];
            if (run.tail != last.head || run.struck || taken[r]) continue;
            const auto offer = follow<Kind>(rule, last, cost, run);
            if (offer < table[r].cost) table[r] = {offer, static_cast<std::uint16_t>(from)};
        }
    }

public:
    Scan(const Map& map, const Rule& rule) : runs(map.runs), rule(rule) {}

    const std::vector<Place<Cost>>& survey(std::uint8_t home) {
        table.resize(runs.size());
        taken.assign(runs.size(), 0);
        for (std::size_t r = 0; r < runs.size(); ++r) {
            const Laid& run = runs[r];
            table[r] = run.struck || run.tail != home ? Place<Cost>{} : Place<Cost>{begin_by<Kind>(run), no_run};
        }
        for (std::size_t next; (next = next_waiting()) != no_run;) {
            taken[next] = 1;
            relax(next);
        }
        return table;
    }

    // The last run of a cheapest walk to another point, or no_run; the table has it and the runs before it.
    std::uint16_t last_run(std::uint8_t home, std::uint8_t mark) {
        survey(home);
        std::uint16_t last = no_run;
        auto least = absent<Cost>;
        for (std::size_t r = 0; r < runs.size(); ++r)
            if (runs[r].head == mark && table[r].cost < least) {
                least = table[r].cost;
                last = static_cast<std::uint16_t>(r);
            }
        return last;
    }

    const Place<Cost>& at(std::uint16_t run) const { return table[run]; }
};

// The textbook's: a priority queue of labels, stale ones skipped, and the runs that leave each point from the map's lists.
template <class Kind, class Rule>
class Queue {
    using Cost = typename Kind::Cost;

    struct Label {
        Cost cost;
        std::uint16_t run;
        bool operator>(const Label& other) const { return cost > other.cost; }
    };

    struct Waiting : std::priority_queue<Label, std::vector<Label>, std::greater<>> {
        void clear() { this->c.clear(); }
    };

    const Map& map;
    const Rule& rule;
    std::vector<Place<Cost>> table;
    Waiting waiting;

    // Searches until it takes a run for which `done`. That run is the answer, or no_run where none comes.
    template <class Done>
    std::uint16_t search(std::uint8_t home, Done done) {
        table.assign(map.runs.size(), {});
        waiting.clear();
        for (const auto r : map.leaving[home]) {
            table[r] = {begin_by<Kind>(map.runs[r]), no_run};
            waiting.push({table[r].cost, r});
        }
        while (!waiting.empty()) {
            const auto [cost, from] = waiting.top();
            waiting.pop();
            if (cost > table[from].cost) continue;
            const Laid& last = map.runs[from];
            if (done(last)) return from;
            for (const auto r : map.leaving[last.head]) {
                const auto offer = follow<Kind>(rule, last, cost, map.runs[r]);
                if (offer < table[r].cost) {
                    table[r] = {offer, from};
                    waiting.push({offer, r});
                }
            }
        }
        return no_run;
    }

public:
    Queue(const Map& map, const Rule& rule) : map(map), rule(rule) {}

    const std::vector<Place<Cost>>& survey(std::uint8_t home) {
        search(home, [](const Laid&) { return false; });
        return table;
    }

    // The same as a scan's, but the search ends with the mark.
    std::uint16_t last_run(std::uint8_t home, std::uint8_t mark) {
        return search(home, [mark](const Laid& run) { return run.head == mark; });
    }

    const Place<Cost>& at(std::uint16_t run) const { return table[run]; }
};
