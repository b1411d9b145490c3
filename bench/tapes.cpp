#include "tapes.h"

#include <algorithm>
#include <initializer_list>
#include <sstream>
#include <string_view>
#include <utility>

namespace {

// Writes commands, and keeps the desk that they make.
class Writer {
    Desk desk;

    void put(std::initializer_list<int> bytes) {
        for (const auto byte : bytes) tape.bytes.push_back(static_cast<std::uint8_t>(byte));
    }

public:
    Tape tape;

    void lay(const Run& run) {
        put({'R', run.tail, run.head, run.winch, run.time >> 8, run.time & 255, run.strain});
        desk.runs.push_back(run);
        desk.struck.push_back(false);
    }

    // The number of a run that is not struck.
    std::uint8_t any_run(Random& random) const {
        for (;;)
            if (const auto run = below(desk.runs.size(), random); !desk.struck[run]) return static_cast<std::uint8_t>(run);
    }

    void strike(std::uint8_t run) {
        put({'X', run});
        desk.struck[run] = true;
    }

    void retime(std::uint8_t run, std::uint16_t time) {
        put({'T', run, time >> 8, time & 255});
        desk.runs[run].time = time;
    }

    void name(std::uint8_t point) { put({'N', point, 'P', 'O', 'I', 'N', 'T', '0' + point / 100, '0' + point / 10 % 10, '0' + point % 10}); }

    void set_flat(std::uint16_t setting) {
        put({'F', setting >> 8, setting & 255});
        desk.flat = setting;
    }

    void set_point(std::uint8_t point, std::uint16_t setting) {
        put({'P', point, setting >> 8, setting & 255});
        desk.by_point[point] = setting;
    }

    void set_pair(std::uint8_t arriving, std::uint8_t leaving, std::uint16_t setting) {
        put({'M', arriving, leaving, setting >> 8, setting & 255});
        desk.by_pair[arriving][leaving] = setting;
    }

    // The questions up to the next call are put to the desk as it stands now.
    void use(char rule) {
        put({'W', rule});
        desk.rule = rule;
        tape.desks.push_back(desk);
    }

    void ask(char kind, std::uint8_t home, std::uint8_t mark) {
        put({'Q', kind, home, mark});
        tape.questions.push_back({kind, home, mark, tape.desks.size() - 1});
    }
};

}  // namespace

std::uint16_t Desk::penalty(std::uint8_t point, std::uint8_t arriving, std::uint8_t leaving) const {
    if (arriving == leaving) return 0;
    return rule == 'f' ? flat : rule == 'p' ? by_point[point] : by_pair[arriving][leaving];
}

std::optional<std::uint64_t> Desk::cost_of(const std::vector<std::size_t>& walk, const Question& question) const {
    std::uint64_t tenths = 0, hand_overs = 0;
    std::uint8_t strain = 0, at = question.home;
    std::vector<bool> passed(runs.size());
    const Run* last = nullptr;
    for (const auto r : walk) {
        if (r >= runs.size() || struck[r] || passed[r] || runs[r].tail != at) return {};
        const Run& run = runs[r];
        if (last) {
            const auto over = penalty(at, last->winch, run.winch);
            if (over == barred) return {};
            tenths += over;
            hand_overs += last->winch != run.winch;
        }
        tenths += run.time;
        strain = std::max(strain, run.strain);
        passed[r] = true;
        at = run.head;
        last = &run;
    }
    if (at != question.mark) return {};
    return question.kind == 't' ? tenths : question.kind == 's' ? strain : (hand_overs << 32) + tenths;
}

std::optional<std::string> Tape::fixed_part(std::size_t question, const std::string& line) const {
    const auto& asked = questions[question];
    const auto heading = asked.kind + (' ' + std::to_string(asked.home)) + ' ' + std::to_string(asked.mark);
    if (line == heading + " no way") return line;
    if (!line.starts_with(heading)) return {};
    std::istringstream rest(line.substr(heading.size()));
    std::uint64_t cost = 0;
    std::size_t count = 0;
    rest >> cost >> count;
    std::vector<std::size_t> walk;
    for (std::size_t run; rest >> run;) walk.push_back(run);
    const auto fixed = heading + ' ' + std::to_string(cost);
    // Written again, it must be the same line: so no other byte stands in it.
    auto again = fixed + ' ' + std::to_string(walk.size());
    for (const auto run : walk) again += ' ' + std::to_string(run);
    if (line != again || desks[asked.desk].cost_of(walk, asked) != cost) return {};
    return fixed;
}

Tape make_tape(const Rig& rig, Random& random) {
    constexpr int rounds = 4, questions = 30;
    const auto any_point = [&] { return static_cast<std::uint8_t>(below(rig.point_count, random)); };
    Writer writer;
    for (const auto& run : rig.runs) writer.lay(run);
    for (std::uint8_t p = 0; p < rig.point_count; ++p) writer.name(p);
    for (int round = 0; round < rounds; ++round) {
        for (std::size_t i = 0; i < rig.runs.size() / 32; ++i) writer.strike(writer.any_run(random));
        for (std::size_t i = 0; i < rig.runs.size() / 16; ++i) {
            const auto run = writer.any_run(random);  // before the time: the order of arguments is the compiler's
            writer.retime(run, static_cast<std::uint16_t>(below(65536, random)));
        }
        writer.set_flat(round + 1 == rounds ? barred : static_cast<std::uint16_t>(below(10000, random)));
        for (std::uint8_t p = 0; p < rig.point_count; ++p) writer.set_point(p, make_setting(random));
        for (const auto& s : rig.settings) writer.set_pair(s.arriving, s.leaving, make_setting(random));
        for (const char rule : std::string_view("fpm")) {
            writer.use(rule);
            for (const char kind : std::string_view("tsh"))
                for (int i = 0; i < questions; ++i) {
                    const auto home = any_point();
                    writer.ask(kind, home, any_point());
                }
        }
    }
    return std::move(writer.tape);
}
