// What the driver hands to each search and player, ours and the peers': the same runs, settings and homes, the same tapes.
#pragma once
#include <cstddef>
#include <cstdint>

extern "C" {
#include "../console/kobrinza.h"
}

constexpr std::size_t points = 128;
constexpr std::size_t winches = 16;
constexpr std::size_t most_runs = 256;
constexpr std::uint16_t barred = 65535;
constexpr std::uint32_t no_walk = UINT32_MAX;

struct Run {
    std::uint8_t tail, head, winch, strain;
    std::uint16_t time;
};

struct Setting {
    std::uint8_t arriving, leaving;
    std::uint16_t setting;
};

// Lays the runs, makes the settings of the pair rule, and surveys by time from each of the points 0 to homes - 1.
// Leaves the cost of the point v from the home h in costs[points * h + v], or no_walk where there is no legal walk.
using Surveys = bool(const Run* runs, std::size_t run_count, const Setting* settings, std::size_t setting_count,
                     std::uint8_t homes, std::uint32_t* costs, std::size_t cost_count);

extern "C" Surveys bench_surveys;    // ours: crates/bench_rig
extern Surveys* const scan_surveys;  // the peers: peer.cpp
extern Surveys* const queue_surveys;
extern Surveys* const graph_surveys;  // null where no graph library is installed

// Plays a tape into a listing, as kobrinza_play does.
using Plays = decltype(kobrinza_play);

extern Plays* const scan_play;  // the peers: player.cpp
extern Plays* const queue_play;
