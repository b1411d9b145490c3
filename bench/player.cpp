// Plays whole tapes in plain C++: the map and the rules as docs/TAPE.md has them, and either search for the questions.
#include "search.h"

#include <charconv>
#include <cstring>
#include <string>

namespace {

struct Fault {
    kobrinza_fault number;
    kobrinza_layer layer;
};

void refuse_if(bool wrong, kobrinza_fault number, kobrinza_layer layer) {
    if (wrong) throw Fault{number, layer};
}

std::size_t operand_bytes(std::uint8_t command) {
    switch (command) {
    case 'R': return 6;
    case 'X': return 1;
    case 'T': return 3;
    case 'N': return 9;
    case 'F': return 2;
    case 'P': return 3;
    case 'M': return 4;
    case 'W': return 1;
    case 'Q': return 3;
    default: throw Fault{KOBRINZA_UNKNOWN_COMMAND, KOBRINZA_TAPE};
    }
}

std::uint16_t two_bytes(const std::uint8_t* bytes) { return static_cast<std::uint16_t>(bytes[0] << 8 | bytes[1]); }

// A search for each kind, by one rule.
template <template <class, class> class Search, class Rule>
struct Searches {
    Search<Time, Rule> time;
    Search<Strain, Rule> strain;
    Search<HandOvers, Rule> hand_overs;

    Searches(const Map& map, const Rule& rule) : time(map, rule), strain(map, rule), hand_overs(map, rule) {}
};

template <template <class, class> class Search>
class Player {
    Map map;
    std::array<std::array<std::uint8_t, 8>, points> names;
    FlatRule flat;
    PointRule point;
    PairRule pair;
    std::uint8_t rule = 'f';
    Searches<Search, FlatRule> by_flat{map, flat};
    Searches<Search, PointRule> by_point{map, point};
    Searches<Search, PairRule> by_pair{map, pair};
    std::vector<std::uint16_t> route;
    std::string line;

    void lay(const Run& run) {
        refuse_if(run.tail >= points || run.head >= points, KOBRINZA_NO_POINT, KOBRINZA_MAP);
        refuse_if(run.tail == run.head, KOBRINZA_SAME_POINT, KOBRINZA_MAP);
        refuse_if(run.winch >= winches, KOBRINZA_NO_WINCH, KOBRINZA_MAP);
        refuse_if(run.strain > 100, KOBRINZA_STRAIN_TOO_HIGH, KOBRINZA_MAP);
        refuse_if(map.runs.size() == most_runs, KOBRINZA_MAP_FULL, KOBRINZA_MAP);
        map.lay(run);
    }

    void needs_run(std::uint8_t run) const {
        refuse_if(run >= map.runs.size(), KOBRINZA_NO_RUN, KOBRINZA_MAP);
        refuse_if(map.runs[run].struck, KOBRINZA_RUN_STRUCK, KOBRINZA_MAP);
    }

    void strike(std::uint8_t run) {
        needs_run(run);
        map.strike(run);
    }

    void retime(std::uint8_t run, std::uint16_t time) {
        needs_run(run);
        map.runs[run].time = time;
    }

    void name(std::uint8_t at, const std::uint8_t* text) {
        refuse_if(at >= points, KOBRINZA_NO_POINT, KOBRINZA_MAP);
        refuse_if(!std::all_of(text, text + 8, [](auto byte) { return 32 <= byte && byte <= 126; }), KOBRINZA_BAD_NAME, KOBRINZA_MAP);
        std::copy_n(text, 8, names[at].begin());
    }

    void set_point(std::uint8_t at, std::uint16_t setting) {
        refuse_if(at >= points, KOBRINZA_NO_POINT, KOBRINZA_RULE);
        point.settings[at] = setting;
    }

    void set_pair(std::uint8_t arriving, std::uint8_t leaving, std::uint16_t setting) {
        refuse_if(arriving >= winches || leaving >= winches, KOBRINZA_NO_WINCH, KOBRINZA_RULE);
        refuse_if(arriving == leaving, KOBRINZA_SAME_WINCH, KOBRINZA_RULE);
        pair.settings[arriving][leaving] = setting;
    }

    void use(std::uint8_t letter) {
        refuse_if(letter != 'f' && letter != 'p' && letter != 'm', KOBRINZA_UNKNOWN_LETTER, KOBRINZA_TAPE);
        rule = letter;
    }

    void put(std::uint64_t number) {
        char digits[20];
        line += ' ';
        line.append(digits, std::to_chars(digits, digits + sizeof digits, number).ptr);
    }

    void put_route(std::uint64_t cost) {
        put(cost);
        put(route.size());
        std::for_each(route.rbegin(), route.rend(), [this](auto run) { put(run); });
    }

    // Appends the answer to the line.
    template <class Asked>
    void answer(Asked& search, std::uint8_t home, std::uint8_t mark) {
        route.clear();
        if (home == mark) return put_route(0);
        const auto last = search.last_run(home, mark);
        if (last == no_run) {
            line += " no way";
            return;
        }
        for (auto run = last; run != no_run; run = search.at(run).run) route.push_back(run);
        put_route(search.at(last).cost);
    }

    template <class Rule>
    void answer_by(Searches<Search, Rule>& by, std::uint8_t kind, std::uint8_t home, std::uint8_t mark) {
        switch (kind) {
        case 't': return answer(by.time, home, mark);
        case 's': return answer(by.strain, home, mark);
        case 'h': return answer(by.hand_overs, home, mark);
        }
    }

    void ask(std::uint8_t kind, std::uint8_t home, std::uint8_t mark) {
        refuse_if(kind != 't' && kind != 's' && kind != 'h', KOBRINZA_UNKNOWN_LETTER, KOBRINZA_TAPE);
        refuse_if(home >= points || mark >= points, KOBRINZA_NO_POINT, KOBRINZA_SEARCH);
        line = static_cast<char>(kind);
        put(home);
        put(mark);
        switch (rule) {
        case 'f': answer_by(by_flat, kind, home, mark); break;
        case 'p': answer_by(by_point, kind, home, mark); break;
        case 'm': answer_by(by_pair, kind, home, mark); break;
        }
        line += '\n';
    }

public:
    Player() {
        for (auto& name : names) name.fill(' ');
    }

    // Obeys one command, whose operands are there, and gives the line that it writes.
    const std::string& obey(std::uint8_t command, const std::uint8_t* operands) {
        const auto o = operands;
        line.clear();
        switch (command) {
        case 'R': lay({o[0], o[1], o[2], o[5], two_bytes(o + 3)}); break;
        case 'X': strike(o[0]); break;
        case 'T': retime(o[0], two_bytes(o + 1)); break;
        case 'N': name(o[0], o + 1); break;
        case 'F': flat.setting = two_bytes(o); break;
        case 'P': set_point(o[0], two_bytes(o + 1)); break;
        case 'M': set_pair(o[0], o[1], two_bytes(o + 2)); break;
        case 'W': use(o[0]); break;
        case 'Q': ask(o[0], o[1], o[2]); break;
        }
        return line;
    }
};

template <template <class, class> class Search>
kobrinza_report play(const std::uint8_t* tape, std::size_t tape_len, std::uint8_t* listing, std::size_t listing_len) {
    Player<Search> player;
    std::size_t at = 0, len = 0;
    try {
        while (at < tape_len) {
            const auto operands = operand_bytes(tape[at]);
            refuse_if(tape_len - at - 1 < operands, KOBRINZA_TAPE_ENDS, KOBRINZA_TAPE);
            const auto& line = player.obey(tape[at], tape + at + 1);
            refuse_if(line.size() > listing_len - len, KOBRINZA_NO_ROOM, KOBRINZA_LISTING);
            std::memcpy(listing + len, line.data(), line.size());
            at += 1 + operands;
            len += line.size();
        }
    } catch (const Fault& fault) {
        return {len, at, static_cast<std::uint32_t>(fault.number), static_cast<std::uint32_t>(fault.layer)};
    }
    return {len, 0, KOBRINZA_NO_FAULT, KOBRINZA_NO_LAYER};
}

}  // namespace

Plays* const scan_play = play<Scan>;
Plays* const queue_play = play<Queue>;
