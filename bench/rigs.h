// Rigs at random from a fixed seed, and how the time of a row is taken.
#pragma once
#include "rig.h"

#include <ctime>
#include <random>
#include <utility>
#include <vector>

using Random = std::mt19937;

// The standard's distributions and shuffle differ from library to library; this does not.
inline std::size_t below(std::size_t n, Random& random) { return static_cast<std::size_t>(random() % n); }

struct Rig {
    std::vector<Run> runs;
    std::vector<Setting> settings;
    std::uint8_t point_count;  // its runs lie between the points below
};

// 10.7 percent of the settings bar; a joint of one winch is never barred, so about a tenth of all joints is.
inline std::uint16_t make_setting(Random& random) {
    return below(1000, random) < 107 ? barred : static_cast<std::uint16_t>(below(10000, random));
}

// A ring through all the points, so that each has a way on, and then runs between points at random.
inline Rig make_rig(std::size_t run_count, std::size_t point_count, Random& random) {
    Rig rig;
    rig.point_count = static_cast<std::uint8_t>(point_count);
    for (std::size_t r = 0; r < run_count; ++r) {
        const auto tail = r < point_count ? r : below(point_count, random);
        const auto step = r < point_count ? 1 : 1 + below(point_count - 1, random);
        rig.runs.push_back({static_cast<std::uint8_t>(tail), static_cast<std::uint8_t>((tail + step) % point_count),
                            static_cast<std::uint8_t>(below(winches, random)), static_cast<std::uint8_t>(below(101, random)),
                            static_cast<std::uint16_t>(below(65536, random))});
        std::swap(rig.runs.back(), rig.runs[below(r + 1, random)]);
    }
    for (std::uint8_t a = 0; a < winches; ++a)
        for (std::uint8_t l = 0; l < winches; ++l)
            if (a != l) rig.settings.push_back({a, l, make_setting(random)});
    return rig;
}

// Calls `row` with the number of runs and of points of each row of a table: eight runs a point (dense), then two (sparse).
template <class Row>
void for_each_row(Row row) {
    for (const std::size_t runs_a_point : {8, 2})
        for (const std::size_t run_count : {32, 64, 128, 256}) row(run_count, run_count / runs_a_point);
}

constexpr int tries = 5;  // the best of them counts

// Seconds of processor time, so that other work on the machine counts less.
template <class Work>
double seconds(int passes, Work work) {
    const auto start = std::clock();
    for (int pass = 0; pass < passes; ++pass) work();
    return static_cast<double>(std::clock() - start) / CLOCKS_PER_SEC;
}

// As many passes as take more than 0.2 seconds.
template <class Work>
int passes_of(Work work) {
    int passes = 1;
    for (double took; (took = seconds(passes, work)) < 0.2;)
        passes = took < 0.02 ? passes * 8 : static_cast<int>(passes * 0.25 / took) + 1;
    return passes;
}
