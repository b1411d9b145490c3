// Sees that ours and the peers survey the same costs, and prints how long a survey takes each.
#include "rigs.h"
#include "tables.h"

#include <algorithm>
#include <cstdio>
#include <cstdlib>

namespace {

// Surveys from the first `homes` points.
bool survey(Surveys search, const Rig& rig, std::uint8_t homes, std::vector<std::uint32_t>& costs) {
    return search(rig.runs.data(), rig.runs.size(), rig.settings.data(), rig.settings.size(), homes, costs.data(), costs.size());
}

// So many rigs that no branch predictor learns their surveys by heart.
std::vector<Rig> make_rigs(std::size_t run_count, std::size_t point_count, Random& random) {
    std::vector<Rig> rigs;
    while (rigs.size() * point_count < 1024) rigs.push_back(make_rig(run_count, point_count, random));
    return rigs;
}

// The percentage of the rigs' joints that are barred.
double barred_share(const std::vector<Rig>& rigs) {
    std::size_t joints = 0, shut = 0;
    for (const auto& rig : rigs) {
        bool bars[winches][winches] = {};
        for (const auto& s : rig.settings) bars[s.arriving][s.leaving] = s.setting == barred;
        for (const auto& q : rig.runs)
            for (const auto& r : rig.runs)
                if (q.head == r.tail) {
                    ++joints;
                    shut += bars[q.winch][r.winch];
                }
    }
    return 100.0 * static_cast<double>(shut) / static_cast<double>(joints);
}

std::vector<std::uint32_t> costs_by(Surveys search, const Rig& rig, const char* who) {
    std::vector<std::uint32_t> costs(points * rig.point_count, 0);
    if (!survey(search, rig, rig.point_count, costs)) {
        std::fprintf(stderr, "bench: %s refused a rig\n", who);
        std::exit(1);
    }
    return costs;
}

void compare(const Rig& rig, Surveys search, const char* who) {
    const auto ours = costs_by(bench_surveys, rig, "ours");
    const auto theirs = costs_by(search, rig, who);
    for (std::size_t i = 0; i < ours.size(); ++i)
        if (ours[i] != theirs[i]) {
            std::fprintf(stderr, "bench: %zu runs, home %zu, point %zu: we say %u, %s says %u\n", rig.runs.size(), i / points,
                         i % points, ours[i], who, theirs[i]);
            std::exit(1);
        }
}

class Timing {
    Surveys* search;
    const std::vector<Rig>& rigs;
    int passes;
    double best_surveyed = 1e9, best_set_up = 1e9;

    // With or without the surveys: without is what the set-up takes.
    auto work(bool surveyed) const {
        return [this, surveyed] {
            static std::vector<std::uint32_t> costs(points * points);
            for (const auto& rig : rigs) survey(search, rig, surveyed ? rig.point_count : 0, costs);
        };
    }

public:
    Timing(Surveys* search, const std::vector<Rig>& rigs) : search(search), rigs(rigs), passes(passes_of(work(true))) {}

    void take() {
        best_surveyed = std::min(best_surveyed, seconds(passes, work(true)));
        best_set_up = std::min(best_set_up, seconds(passes, work(false)));
    }

    double set_up_microseconds() const { return 1e6 * best_set_up / static_cast<double>(rigs.size()) / passes; }

    double survey_microseconds() const {
        return 1e6 * (best_surveyed - best_set_up) / static_cast<double>(rigs.size()) / rigs[0].point_count / passes;
    }
};

}  // namespace

void print_surveys() {
    Random random(20260);
    std::puts("| runs | points | joints barred | ours, µs a survey | C++ scan, µs | ours / scan | C++ queue, µs | ours / queue | Boost, µs | ours / Boost | Boost's graph made, µs a rig |");
    std::puts("|---|---|---|---|---|---|---|---|---|---|---|");
    for_each_row([&random](std::size_t run_count, std::size_t point_count) {
        const auto rigs = make_rigs(run_count, point_count, random);
        for (const auto& rig : rigs) {
            compare(rig, scan_surveys, "the scan");
            compare(rig, queue_surveys, "the queue");
            if (graph_surveys) compare(rig, graph_surveys, "Boost");
        }
        // They take turns, so that what else the machine does falls on all of them.
        std::vector<Timing> timings;
        for (auto* search : {bench_surveys, scan_surveys, queue_surveys, graph_surveys})
            if (search) timings.emplace_back(search, rigs);
        for (int t = 0; t < tries; ++t)
            for (auto& timing : timings) timing.take();
        const auto ours = timings[0].survey_microseconds();
        std::printf("| %zu | %zu | %.1f %% | %.2f |", run_count, point_count, barred_share(rigs), ours);
        for (std::size_t peer = 1; peer < timings.size(); ++peer)
            std::printf(" %.2f | %.2f |", timings[peer].survey_microseconds(), ours / timings[peer].survey_microseconds());
        // What Boost needs for a rig beyond what the scan does, which lays the same runs and makes the same settings.
        if (graph_surveys)
            std::printf(" %.2f |\n", timings[3].set_up_microseconds() - timings[1].set_up_microseconds());
        else
            std::puts(" - | - | - |");
        std::fflush(stdout);
    });
}
