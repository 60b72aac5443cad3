// What broadcasts cost, by docs/GROWING.md ("What broadcasts cost").
#pragma once
#include <optional>
#include <vector>

#include "node.hpp"

/// Shares and means are told in so many parts of one, rounded down.
constexpr uint64_t PARTS = 10000;

/// What is counted of one broadcast; PRUNE carries no id, so it is known only of one that was made alone.
struct Cost {
    Id origin = NOBODY;
    uint64_t delivered = 0, hops = 0, gossip = 0, ihave = 0, graft = 0, prune = 0;

    /// How many GOSSIP more there were than it takes, for each delivery but the first.
    std::optional<uint64_t> redundancy() const {
        if (delivered < 2) return std::nullopt;
        return gossip * PARTS / (delivered - 1) - PARTS;
    }
};

/// What was counted of all broadcasts of a run so far.
class Tally {
  public:
    std::vector<Cost> costs;  // by the broadcast's place in the run
    uint64_t prunes = 0;

    void begin(Id origin) { costs.emplace_back().origin = origin; }

    void deliver(Id message, uint64_t hops) {
        costs[message].delivered++;
        costs[message].hops = std::max(costs[message].hops, hops);
    }

    void send(const Packet& packet) {
        if (packet.kind == Kind::Gossip) costs[packet.subject].gossip++;
        if (packet.kind == Kind::Ihave) costs[packet.subject].ihave++;
        if (packet.kind == Kind::Graft) costs[packet.subject].graft++;
        if (packet.kind == Kind::Prune) prunes++;
    }
};
