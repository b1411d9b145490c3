// Tapes at random, and what the driver itself knows of them, to hold the players' listings to.
#pragma once
#include "rigs.h"

#include <array>
#include <optional>
#include <string>
#include <vector>

struct Question {
    char kind;
    std::uint8_t home, mark;
    std::size_t desk;  // which of its tape's
};

// The map and the rules as they stand at a question.
struct Desk {
    std::vector<Run> runs;
    std::vector<bool> struck;
    std::uint16_t flat = 0;
    std::array<std::uint16_t, points> by_point{};
    std::array<std::array<std::uint16_t, winches>, winches> by_pair{};
    char rule = 'f';

    std::uint16_t penalty(std::uint8_t point, std::uint8_t arriving, std::uint8_t leaving) const;

    // The cost of a legal walk from the question's home to its mark that repeats no run. Nothing where it is no such walk.
    std::optional<std::uint64_t> cost_of(const std::vector<std::size_t>& walk, const Question& question) const;
};

struct Tape {
    std::vector<std::uint8_t> bytes;
    std::vector<Desk> desks;
    std::vector<Question> questions;

    // What is fixed of a question's line: all but the route. Nothing where the line is no right answer, but for being cheapest.
    std::optional<std::string> fixed_part(std::size_t question, const std::string& line) const;
};

// The rig's runs and names; then four rounds, each of which strikes and retimes runs, sets all rules anew, and asks as many
// questions of each kind by each rule.
Tape make_tape(const Rig& rig, Random& random);
