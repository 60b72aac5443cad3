// One node of an overlay, HyParView and Plumtree, by docs/PROTOCOL.md. What a broadcast carries shows nowhere in a
// grown overlay, so it is left out.
#pragma once
#include <algorithm>
#include <array>
#include <optional>
#include <vector>

#include "pcg.hpp"

using Id = uint32_t;
/// No node has this id.
constexpr Id NOBODY = 0;
/// A GOSSIP of this round is sent on with the same.
constexpr uint16_t LAST_ROUND = 65535;

/// When a DISCONNECT from an active member starts an attempt: never, which is the profile's rule, if nobody is active
/// any more, or always.
enum class Refill : uint8_t { Never, Alone, Always };

struct Params {
    unsigned active = 5, passive = 30, arwl = 6, prwl = 3, ka = 3, kp = 4, ttl = 4;
    Refill refill = Refill::Never;
    // for the study alone: an attempt goes on until the active view is full; a node that starts a shuffle with a free
    // place starts an attempt first; a broadcast goes to all neighbours, and nobody sends PRUNE; whoever an attempt
    // finds gets the newest broadcast too
    bool until_full = false, fills = false, floods = false, passes_on = false;
};

/// Some ids, ascending.
class Ids {
  public:
    bool has(Id id) const { return std::binary_search(all.begin(), all.end(), id); }
    void insert(Id id) {
        auto at = std::lower_bound(all.begin(), all.end(), id);
        if (at == all.end() || *at != id) all.insert(at, id);
    }
    bool remove(Id id) {
        auto at = std::lower_bound(all.begin(), all.end(), id);
        if (at == all.end() || *at != id) return false;
        all.erase(at);
        return true;
    }
    void clear() { all.clear(); }
    size_t size() const { return all.size(); }
    bool empty() const { return all.empty(); }
    auto begin() const { return all.begin(); }
    auto end() const { return all.end(); }
    Id operator[](size_t at) const { return all[at]; }

  private:
    std::vector<Id> all;
};

enum class Kind : uint8_t {
    Join,
    ForwardJoin,
    Joined,
    Neighbor,
    NeighborReply,
    Disconnect,
    Shuffle,
    ShuffleReply,
    Gossip,
    Ihave,
    Graft,
    Prune
};

/// The ids that a shuffle trades: the node itself, and at most 8 of each view.
struct Traded {
    uint8_t count = 0;
    std::array<Id, 17> ids;
    void push(Id id) { ids[count++] = id; }
    const Id* begin() const { return ids.data(); }
    const Id* end() const { return ids.data() + count; }
};

/// A message on its way.
struct Packet {
    Id to, sender;
    Kind kind;
    uint8_t life = 0;    // of FORWARDJOIN and SHUFFLE
    bool flag = false;   // the high priority of NEIGHBOR, the yes of NEIGHBORREPLY
    uint16_t round = 0;  // of GOSSIP
    Id subject = 0;      // the new node of FORWARDJOIN, the origin of SHUFFLE, or which broadcast it is
    Traded traded = {};
};

/// What a node keeps of one broadcast.
struct Kept {
    bool held = false, timer = false;
    uint16_t round = 0;
    std::vector<Id> notes;
};

/// How a node lost a neighbour: it dropped it for another, was told so by DISCONNECT, or heard that it crashed.
enum class Loss : uint8_t { None, OwnDrop, Disconnect, Crash };

struct Node {
    Id me = NOBODY;
    bool lives = true;
    Ids active, passive, lazy, tried;
    Id asked = NOBODY;
    Traded sent;
    std::vector<Kept> kept;  // by the broadcast's place in the run
    uint32_t made = 0;
    // for the study alone
    uint32_t ups = 0, last_down = 0;
    Loss last_loss = Loss::None;
};

/// A node while it takes a step.
class Step {
  public:
    /// `made`: how many broadcasts were made so far.
    Step(const Params& params, Node& node, Pcg64 words, uint32_t entry, size_t made, std::vector<Packet>& sends)
        : params(params), node(node), words(words), entry(entry), made(made), sends(sends) {}

    /// A broadcast that is delivered, and the hops at which it is.
    struct Delivery {
        Id message;
        uint16_t hops;
    };

    /// What the step delivers.
    std::optional<Delivery> delivers;

    void boot(Id contact) {
        if (contact != NOBODY) send(contact, Kind::Join);
    }

    void receive(const Packet& packet) {
        if (packet.sender == node.me) return;
        switch (packet.kind) {
            case Kind::Join:
                return on_join(packet.sender);
            case Kind::ForwardJoin:
                return on_forward_join(packet.sender, packet.subject, packet.life);
            case Kind::Joined:
                return add_active(packet.sender);
            case Kind::Neighbor:
                return on_neighbor(packet.sender, packet.flag);
            case Kind::NeighborReply:
                return on_neighbor_reply(packet.sender, packet.flag);
            case Kind::Disconnect:
                return on_disconnect(packet.sender);
            case Kind::Shuffle:
                return on_shuffle(packet);
            case Kind::ShuffleReply:
                return integrate(packet.traded, node.sent);
            case Kind::Gossip:
                return on_gossip(packet);
            case Kind::Ihave:
                return on_ihave(packet.sender, packet.subject);
            case Kind::Graft:
                return on_graft(packet.sender, packet.subject);
            case Kind::Prune:
                return make_lazy(packet.sender);
        }
    }

    void on_report(Id crashed) {
        bool was_active = node.active.has(crashed);
        node.passive.remove(crashed);
        if (was_active) {
            down(crashed, Loss::Crash);
            node.tried.clear();
        }
        if (was_active || node.asked == crashed) go_on();
    }

    void shuffle() {
        if (params.fills) {
            node.tried.clear();
            go_on();
        }
        if (node.active.empty()) return;
        Id target = pick(node.active);
        node.sent = {};
        node.sent.push(node.me);
        sample(node.active, params.ka, node.sent);
        sample(node.passive, params.kp, node.sent);
        Packet& packet = send(target, Kind::Shuffle);
        packet.subject = node.me;
        packet.life = params.ttl;
        packet.traded = node.sent;
    }

    void broadcast(Id message) {
        node.made++;
        keeps(message).held = true;
        delivers = {message, 0};
        spread(message, NOBODY);
    }

    void fire(Id message) {
        Kept& kept = keeps(message);
        if (kept.notes.empty()) {
            kept.timer = false;
            return;
        }
        Id oldest = kept.notes.front();
        kept.notes.erase(kept.notes.begin());
        node.lazy.remove(oldest);
        send(oldest, Kind::Graft).subject = message;
    }

  private:
    // Random choices, and what is sent.

    Id pick(const Ids& members) { return members[words.next() % members.size()]; }

    void sample(const Ids& members, size_t size, Traded& found) {
        Ids left = members;
        for (size = std::min(size, left.size()); size > 0; size--) {
            found.push(pick(left));
            left.remove(found.ids[found.count - 1]);
        }
    }

    Packet& send(Id to, Kind kind) {
        sends.push_back(Packet{to, node.me, kind});
        return sends.back();
    }

    /// The active members but two.
    Ids others(Id one, Id another) const {
        Ids left = node.active;
        left.remove(one);
        left.remove(another);
        return left;
    }

    // The two views.

    bool is_full() const { return node.active.size() >= params.active; }

    bool is_known(Id other) const { return other == node.me || node.active.has(other) || node.passive.has(other); }

    void up(Id other) {
        node.active.insert(other);
        node.ups++;
    }

    void down(Id other, Loss loss) {
        node.active.remove(other);
        node.lazy.remove(other);
        for (Kept& kept : node.kept)
            kept.notes.erase(std::remove(kept.notes.begin(), kept.notes.end(), other), kept.notes.end());
        node.last_loss = loss;
        node.last_down = entry;
    }

    void add_passive(Id other) {
        if (is_known(other)) return;
        if (node.passive.size() >= params.passive) node.passive.remove(pick(node.passive));
        node.passive.insert(other);
    }

    void add_active(Id other) {
        if (other == node.me || node.active.has(other)) return;
        node.passive.remove(other);
        if (is_full()) {
            Id dropped = pick(node.active);
            down(dropped, Loss::OwnDrop);
            add_passive(dropped);
            send(dropped, Kind::Disconnect);
        }
        up(other);
    }

    /// Takes ids into the passive view; those of `given` go out for them first, then random ones.
    void integrate(const Traded& ids, const Traded& given) {
        const Id* left = given.begin();
        for (Id other : ids) {
            if (is_known(other)) continue;
            if (node.passive.size() >= params.passive) {
                while (left != given.end() && !node.passive.has(*left)) left++;
                node.passive.remove(left != given.end() ? *left++ : pick(node.passive));
            }
            node.passive.insert(other);
        }
    }

    // HyParView.

    void forward(Id to, Id newcomer, unsigned life) {
        Packet& packet = send(to, Kind::ForwardJoin);
        packet.subject = newcomer;
        packet.life = life;
    }

    void on_join(Id sender) {
        add_active(sender);
        send(sender, Kind::Joined);
        for (Id other : node.active)
            if (other != sender) forward(other, sender, params.arwl);
    }

    void on_forward_join(Id sender, Id newcomer, unsigned life) {
        if (newcomer == node.me) return;
        Ids further = others(sender, newcomer);
        if (life == 0 || node.active.size() <= 1 || further.empty()) {
            add_active(newcomer);
            send(newcomer, Kind::Joined);
            return;
        }
        if (life == params.prwl) add_passive(newcomer);
        forward(pick(further), newcomer, life - 1);
    }

    void on_neighbor(Id sender, bool is_high) {
        bool accepts = node.active.has(sender) || is_high || !is_full();
        if (accepts) add_active(sender);
        send(sender, Kind::NeighborReply).flag = accepts;
    }

    void end_attempt() {
        node.asked = NOBODY;
        node.tried.clear();
    }

    void go_on() {
        Ids untried = node.passive;
        for (Id other : node.tried) untried.remove(other);
        if (is_full() || untried.empty()) return end_attempt();
        node.asked = pick(untried);
        node.tried.insert(node.asked);
        send(node.asked, Kind::Neighbor).flag = node.active.empty();
    }

    void on_neighbor_reply(Id sender, bool accepted) {
        if (sender != node.asked) {
            if (accepted && !node.active.has(sender)) send(sender, Kind::Disconnect);
        } else if (accepted) {
            if (!params.until_full) end_attempt();
            add_active(sender);
            if (params.until_full) go_on();
            if (params.passes_on && made > 0 && keeps(made - 1).held) gossip(sender, made - 1);
        } else {
            go_on();
        }
    }

    void on_disconnect(Id sender) {
        if (!node.active.has(sender)) return;
        down(sender, Loss::Disconnect);
        add_passive(sender);
        if (params.refill == Refill::Always || (params.refill == Refill::Alone && node.active.empty())) {
            node.tried.clear();
            go_on();
        }
    }

    void on_shuffle(const Packet& packet) {
        unsigned left = packet.life > 0 ? packet.life - 1 : 0;
        if (left > 0 && node.active.size() > 1) {
            Packet further = packet;
            further.sender = node.me;
            further.to = pick(others(packet.sender, NOBODY));
            further.life = left;
            sends.push_back(further);
        } else if (packet.subject != node.me) {
            Traded given;
            sample(node.passive, packet.traded.count, given);
            send(packet.subject, Kind::ShuffleReply).traded = given;
            integrate(packet.traded, given);
        }
    }

    // Plumtree. A neighbour is eager unless it is in `lazy`.

    Kept& keeps(Id message) {
        if (node.kept.size() <= message) node.kept.resize(message + 1);
        return node.kept[message];
    }

    void make_lazy(Id other) {
        if (node.active.has(other)) node.lazy.insert(other);
    }

    void gossip(Id to, Id message) {
        Packet& packet = send(to, Kind::Gossip);
        packet.subject = message;
        packet.round = node.kept[message].round;
    }

    void spread(Id message, Id but) {
        for (Id other : node.active)
            if (other != but && !node.lazy.has(other)) gossip(other, message);
        for (Id other : node.lazy)
            if (other != but) send(other, Kind::Ihave).subject = message;
    }

    void on_gossip(const Packet& packet) {
        Kept& kept = keeps(packet.subject);
        if (kept.held) {
            if (params.floods) return;
            make_lazy(packet.sender);
            send(packet.sender, Kind::Prune);
            return;
        }
        kept = {true, false, std::min<uint16_t>(packet.round, LAST_ROUND - 1), {}};
        kept.round++;
        delivers = {packet.subject, kept.round};
        spread(packet.subject, packet.sender);
        node.lazy.remove(packet.sender);
    }

    void on_ihave(Id sender, Id message) {
        Kept& kept = keeps(message);
        if (kept.held || !node.active.has(sender)) return;
        if (std::find(kept.notes.begin(), kept.notes.end(), sender) == kept.notes.end()) kept.notes.push_back(sender);
        kept.timer = true;
    }

    void on_graft(Id sender, Id message) {
        node.lazy.remove(sender);
        if (keeps(message).held) gossip(sender, message);
    }

    const Params& params;
    Node& node;
    Pcg64 words;
    uint32_t entry;
    size_t made;
    std::vector<Packet>& sends;
};
