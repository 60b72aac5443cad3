// A world of nodes, by docs/PROTOCOL.md ("A world"). Its limits are those of its scale, as in the tool; a world that is
// too large for both scales has none.
#pragma once
#include <stdexcept>

#include "costs.hpp"
#include "packets.hpp"

/// A step that the tool's world would refuse, by its number (docs/FAULTS.md).
struct Refusal : std::runtime_error {
    int number;
    explicit Refusal(int number) : std::runtime_error("refused " + std::to_string(number)), number(number) {}
};

constexpr uint32_t MOST_SENT = 64;

/// How many nodes may ever be born in a world, how many entries there may be, and how many packets on their way.
struct Scale {
    uint32_t most_born, most_entries, most_packets;
};
constexpr Scale PROFILE = {256, 65536, 65536}, LARGE = {32768, 16777216, 1048576};
constexpr Scale ENDLESS = {UINT32_MAX, UINT32_MAX, UINT32_MAX};

/// The scale of a world in which so many nodes are born.
constexpr Scale scale_for(uint32_t nodes) {
    for (Scale scale : {PROFILE, LARGE})
        if (nodes <= scale.most_born) return scale;
    return ENDLESS;
}
constexpr int TOO_MANY_PACKETS = 15, TOO_MANY_ENTRIES = 16;

class World {
  public:
    World(const Params& params, uint64_t seed, uint32_t most_nodes)
        : params(params), words(seed), scale(scale_for(most_nodes)) {
        nodes.reserve(most_nodes);
    }

    std::vector<Node> nodes;  // the node of id N is at place N - 1
    Packets packets;
    uint32_t entries = 0;
    Tally tally;

    Node& node(Id id) { return nodes[id - 1]; }
    bool lives(Id id) const { return nodes[id - 1].lives; }

    std::vector<Id> live() const {
        std::vector<Id> found;
        for (const Node& node : nodes)
            if (node.lives) found.push_back(node.me);
        return found;
    }

    void boot(Id id, Id contact) {
        Pcg64 drawn = begin(true);
        nodes.emplace_back().me = id;
        act(id, drawn, [&](Step& step) { step.boot(contact); });
    }
    void deliver(size_t place) {
        Pcg64 drawn = begin(true);
        Packet packet = packets.take(place);
        if (lives(packet.to)) act(packet.to, drawn, [&](Step& step) { step.receive(packet); });
    }
    void lose(size_t place) {
        begin(false);
        packets.take(place);
    }
    void repeat(size_t place) {
        begin(true);
        packets.push(Packet(packets[place]));
    }
    void crash(Id id) {
        begin(false);
        node(id).lives = false;
    }
    void report(Id id, Id crashed) {
        act(id, begin(true), [&](Step& step) { step.on_report(crashed); });
    }
    void shuffle(Id id) {
        act(id, begin(true), [](Step& step) { step.shuffle(); });
    }
    void broadcast(Id id, Id message) {
        tally.begin(id);
        act(id, begin(true), [&](Step& step) { step.broadcast(message); });
    }
    void timer(Id id, Id message) {
        act(id, begin(true), [&](Step& step) { step.fire(message); });
    }
    void snapshot() { begin(false); }

  private:
    /// Begins an event: its random words. All of them are drawn, whether they are used or not.
    Pcg64 begin(bool needs_room) {
        if (entries >= scale.most_entries) throw Refusal(TOO_MANY_ENTRIES);
        if (needs_room && scale.most_packets - packets.size() < MOST_SENT) throw Refusal(TOO_MANY_PACKETS);
        entries++;
        return words.of_next_event();
    }

    template <class Deed>
    void act(Id id, Pcg64 drawn, Deed deed) {
        sends.clear();
        Step step(params, node(id), drawn, entries, tally.costs.size(), sends);
        deed(step);
        if (step.delivers) tally.deliver(step.delivers->message, step.delivers->hops);
        for (const Packet& packet : sends) {
            tally.send(packet);
            packets.push(packet);
        }
    }

    Params params;
    EventWords words;
    Scale scale;
    std::vector<Packet> sends;
};
