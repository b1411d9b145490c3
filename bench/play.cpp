// Sees that our player and the peer list the same answers, and prints how long a whole tape takes each.
#include "tables.h"
#include "tapes.h"

#include <algorithm>
#include <cstdio>
#include <cstdlib>
#include <sstream>

namespace {

constexpr std::size_t longest_line = 1100;  // 256 runs of four bytes each, and some fields before them

struct Listing {
    kobrinza_report report;
    std::vector<std::string> lines;
};

[[noreturn]] void fail(std::size_t line, const std::string& what) {
    std::fprintf(stderr, "bench: tape, line %zu: %s\n", line + 1, what.c_str());
    std::exit(1);
}

// What a player makes of the tape's first `length` bytes.
Listing listing_by(Plays play, const Tape& tape, std::size_t length) {
    std::string text(tape.questions.size() * longest_line, '\0');
    const auto report = play(tape.bytes.data(), length, reinterpret_cast<std::uint8_t*>(text.data()), text.size());
    text.resize(report.len);
    Listing listing{report, {}};
    std::istringstream in(text);
    for (std::string line; std::getline(in, line);) listing.lines.push_back(line);
    return listing;
}

// Compares a peer with ours on the tape's first `length` bytes, which ask so many questions and end with this fault.
// Gives the number of questions to which there is no way.
std::size_t compare(Plays peer, const Tape& tape, std::size_t length, std::size_t questions, std::uint32_t fault) {
    const auto ours = listing_by(kobrinza_play, tape, length), theirs = listing_by(peer, tape, length);
    const auto& a = ours.report;
    const auto& b = theirs.report;
    if (a.fault != fault || b.fault != fault || a.place != b.place || a.layer != b.layer) fail(ours.lines.size(), "the faults differ");
    if (ours.lines.size() != questions || theirs.lines.size() != questions) fail(ours.lines.size(), "not a line for each question");
    std::size_t no_ways = 0;
    for (std::size_t i = 0; i < questions; ++i) {
        const auto we = tape.fixed_part(i, ours.lines[i]), they = tape.fixed_part(i, theirs.lines[i]);
        if (!we || !they || *we != *they) fail(i, "we say '" + ours.lines[i] + "', the peer '" + theirs.lines[i] + "'");
        no_ways += ours.lines[i].ends_with("no way");
    }
    return no_ways;
}

class Timing {
    Plays* play;
    const std::vector<Tape>& tapes;
    int passes;
    double best = 1e9;

    auto work() const {
        return [this] {
            static std::vector<std::uint8_t> listing(tapes[0].questions.size() * longest_line);
            for (const auto& tape : tapes) play(tape.bytes.data(), tape.bytes.size(), listing.data(), listing.size());
        };
    }

public:
    Timing(Plays* play, const std::vector<Tape>& tapes) : play(play), tapes(tapes), passes(passes_of(work())) {}

    void take() { best = std::min(best, seconds(passes, work())); }

    double tape_milliseconds() const { return 1e3 * best / static_cast<double>(tapes.size()) / passes; }
};

}  // namespace

void print_plays() {
    Random random(20261);
    std::puts("| runs | points | questions a tape | no way | ours, ms a tape | µs a question | C++ scan, ms | µs | ours / scan | C++ queue, ms | µs | ours / queue |");
    std::puts("|---|---|---|---|---|---|---|---|---|---|---|---|");
    for_each_row([&random](std::size_t run_count, std::size_t point_count) {
        std::vector<Tape> tapes;
        std::size_t no_ways = 0;
        for (int i = 0; i < 4; ++i) {
            const auto& tape = tapes.emplace_back(make_tape(make_rig(run_count, point_count, random), random));
            const auto length = tape.bytes.size(), questions = tape.questions.size();
            compare(scan_play, tape, length, questions, KOBRINZA_NO_FAULT);
            no_ways += compare(queue_play, tape, length, questions, KOBRINZA_NO_FAULT);
            compare(queue_play, tape, length - 1, questions - 1, KOBRINZA_TAPE_ENDS);
        }
        Timing ours(kobrinza_play, tapes), scan(scan_play, tapes), queue(queue_play, tapes);
        for (int t = 0; t < tries; ++t)
            for (auto* timing : {&ours, &scan, &queue}) timing->take();
        const auto questions = static_cast<double>(tapes[0].questions.size());
        const auto a = ours.tape_milliseconds(), b = scan.tape_milliseconds(), c = queue.tape_milliseconds();
        std::printf("| %zu | %zu | %.0f | %.0f %% | %.2f | %.2f | %.2f | %.2f | %.2f | %.2f | %.2f | %.2f |\n", run_count, point_count, questions,
                    100 * static_cast<double>(no_ways) / questions / static_cast<double>(tapes.size()), a, 1e3 * a / questions, b,
                    1e3 * b / questions, a / b, c, 1e3 * c / questions, a / c);
        std::fflush(stdout);
    });
}
