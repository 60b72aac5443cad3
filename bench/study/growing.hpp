// How an overlay is grown, by docs/GROWING.md.
#pragma once
#include <functional>
#include <string>

#include "connectivity.hpp"
#include "world.hpp"

struct Options {
    uint32_t nodes = 100;
    Params params;
    uint64_t seed = 0;
    unsigned loss_join = 0, loss = 0, repeat = 0;
    bool is_oldest = false;
    std::optional<uint32_t> pace;
    unsigned rounds = 3, crash = 0;
    bool crash_cut = false;
    unsigned heal = 2, broadcasts = 0;
    bool is_sequential = false;
    std::optional<Id> sender;
    bool detects = false;
    // for the study alone, and no options of the tool
    bool reports_at_once = false, one_contact = false, each_round = false;
    std::string only;  // the phase in which broadcasts are made, if it is one alone
};

/// How the overlay stands at the end of a phase.
struct Phase {
    std::string name;
    Graph graph;
    std::optional<Connectivity> connectivity;  // if it was asked for
    uint32_t moment;
    std::vector<Cost> costs = {};  // of its broadcasts
    uint64_t prunes = 0;

    uint64_t deliveries() const {
        uint64_t sum = 0;
        for (const Cost& cost : costs) sum += cost.delivered;
        return sum;
    }
};

class Choices {
  public:
    explicit Choices(uint64_t seed) : generator(~seed) {}

    uint64_t one_of(uint64_t count) { return generator.next() % count; }
    bool chance(unsigned percent) { return percent > 0 && generator.next() % 100 < percent; }

    std::vector<Id> order(std::vector<Id> left) {
        std::vector<Id> found;
        while (!left.empty()) {
            auto at = left.begin() + one_of(left.size());
            found.push_back(*at);
            left.erase(at);
        }
        return found;
    }

  private:
    Pcg64 generator;
};

class Growing {
  public:
    /// `most_exact`: up to so many nodes the node connectivity is found exactly.
    Growing(const Options& options, uint32_t most_exact, bool keeps_lines)
        : world(options.params, options.seed, options.nodes),
          options(options),
          choices(options.seed),
          most_exact(most_exact),
          keeps_lines(keeps_lines) {}

    World world;
    std::string lines;
    std::vector<Phase> phases;
    /// What is called after each birth, and the turns that follow it.
    std::function<void()> watch_birth = [] {};
    /// What is called after each phase.
    std::function<void(const Phase&)> watch = [](const Phase&) {};

    /// The phases up to the crash.
    void begin() {
        join();
        cut = settle();
    }

    /// The phases after it, with as many crashes as these options say.
    void end(const Options& asked) {
        options = asked;
        crash(cut);
        heal();
    }

  private:
    template <class... Numbers>
    void line(const char* name, Numbers... numbers) {
        if (!keeps_lines) return;
        lines += name;
        ((lines += ' ' + std::to_string(numbers)), ...);
        lines += '\n';
    }

    void comment(const char* said) {
        if (keeps_lines) lines.append("# ").append(said).append("\n");
    }

    void turn() {
        size_t place = options.is_oldest ? 0 : choices.one_of(world.packets.size());
        if (choices.chance(loss)) {
            world.lose(place);
            return line("lose", place);
        }
        if (choices.chance(options.repeat)) {
            world.repeat(place);
            line("repeat", place);
        }
        Id receiver = world.packets[place].to, sender = world.packets[place].sender;
        world.deliver(place);
        line("deliver", place);
        if (are_told && !world.lives(receiver) && world.lives(sender)) report(sender, receiver);
    }

    void report(Id node, Id crashed) {
        world.report(node, crashed);
        line("report", node, crashed);
    }

    void run_out() {
        while (world.packets.size() > 0) turn();
    }

    void turns(uint32_t most) {
        for (; most > 0 && world.packets.size() > 0; most--) turn();
    }

    void rounds(unsigned count) {
        for (; count > 0; count--) {
            for (Id node : choices.order(world.live())) {
                world.shuffle(node);
                line("shuffle", node);
            }
            run_out();
        }
    }

    bool fire() {
        bool fired = false;
        for (Id node : world.live())
            for (size_t message = first; message < messages.size(); message++) {
                const auto& kept = world.node(node).kept;
                if (message >= kept.size() || !kept[message].timer) continue;
                world.timer(node, message);
                line("timer", node, messages[message].origin, messages[message].number);
                fired = true;
            }
        return fired;
    }

    /// Who makes the next broadcast.
    Id sender(const std::vector<Id>& live) {
        if (!options.sender) return live[choices.one_of(live.size())];
        auto at = std::lower_bound(live.begin(), live.end(), *options.sender);
        return at == live.end() ? live.front() : *at;
    }

    /// So many broadcasts at once, until nothing of them is left.
    void spread(unsigned count) {
        first = messages.size();
        std::vector<Id> live = world.live();
        for (; count > 0; count--) {
            Id node = sender(live);
            messages.push_back({node, world.node(node).made});
            world.broadcast(node, messages.size() - 1);
            line("broadcast", node);
        }
        run_out();
        while (fire()) run_out();
    }

    /// One broadcast.
    void spread_alone() {
        uint64_t before = world.tally.prunes;
        spread(1);
        world.tally.costs.back().prune = world.tally.prunes - before;
    }

    /// The broadcasts of a phase: what they cost.
    void broadcasts(Phase& phase) {
        size_t made = messages.size();
        uint64_t before = world.tally.prunes;
        unsigned left = options.only.empty() || options.only == phase.name ? options.broadcasts : 0;
        if (options.is_sequential)
            for (; left > 0; left--) spread_alone();
        else
            spread(left);
        phase.costs.assign(world.tally.costs.begin() + made, world.tally.costs.end());
        phase.prunes = world.tally.prunes - before;
    }

    std::optional<Connectivity> connectivity(const Graph& graph) const {
        if (graph.components().size() > 1) return Connectivity{};
        if (graph.size() > most_exact) return std::nullopt;
        return EvenTest(graph).answer();
    }

    void end_phase(const char* name) {
        world.snapshot();
        line("snapshot");
        line("analyse", world.entries);
        look(name);
    }

    /// How the overlay stands now, and the broadcasts that are made then.
    void look(const char* name) {
        Graph graph(world.nodes);
        auto found = connectivity(graph);
        phases.push_back({name, std::move(graph), found, world.entries});
        broadcasts(phases.back());
        watch(phases.back());
    }

    void join() {
        comment("join");
        loss = options.loss_join;
        world.boot(1, NOBODY);
        line("boot", 1);
        for (Id id = 2; id <= options.nodes; id++) {
            turns(options.pace.value_or(MOST_TURNS));
            watch_birth();
            Id contact = options.one_contact ? 1 : 1 + choices.one_of(id - 1);
            world.boot(id, contact);
            line(("boot " + std::to_string(id) + " by").c_str(), contact);
        }
        run_out();
        watch_birth();
    }

    std::vector<Id> settle() {
        comment("settle");
        loss = options.loss;
        rounds(options.rounds);
        end_phase("settle");
        auto& found = phases.back().connectivity;
        return found ? found->cut : std::vector<Id>{};
    }

    void crash(std::vector<Id> crashed) {
        comment("crash");
        if (!options.crash_cut) {
            crashed = choices.order(world.live());
            crashed.resize(crashed.size() * options.crash / 100);
        }
        for (Id node : crashed) {
            world.crash(node);
            line("crash", node);
        }
        are_told = options.detects;
        end_phase("crash");
    }

    /// The first crashed node in the active view of a node.
    Id first_crashed(Id node) {
        const Ids& active = world.node(node).active;
        auto found = std::find_if(active.begin(), active.end(), [&](Id other) { return !world.lives(other); });
        return found == active.end() ? NOBODY : *found;
    }

    void heal() {
        comment("heal");
        are_told = true;
        if (!options.detects) report_all();
        for (unsigned left = options.heal; left > 0; left--) {
            if (options.each_round) look("heal");
            rounds(1);
        }
        end_phase("heal");
    }

    /// Whoever holds a crashed node is told.
    void report_all() {
        // No packet of a crashed node is on its way, so no node comes to hold one, and one walk through the nodes is
        // enough.
        for (Id node : world.live()) {
            for (Id crashed; (crashed = first_crashed(node)) != NOBODY;) {
                report(node, crashed);
                if (!options.reports_at_once) run_out();
            }
        }
        run_out();
    }

    /// Turns between two births, if the pace is not given.
    static constexpr uint32_t MOST_TURNS = 1000;

    /// A broadcast of the run: its origin, and its number there.
    struct Message {
        Id origin;
        uint32_t number;
    };

    Options options;
    Choices choices;
    std::vector<Id> cut;  // of the settled overlay
    uint32_t most_exact;
    bool keeps_lines, are_told = false;  // whether senders are told of crashed receivers
    unsigned loss = 0;
    std::vector<Message> messages;
    size_t first = 0;  // the place of the first broadcast of those that are made now
};
