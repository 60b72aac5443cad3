// The packets on their way, the oldest first, of which the one at any place can be taken out.
#pragma once
#include <vector>

#include "node.hpp"

class Packets {
  public:
    size_t size() const { return count; }

    const Packet& operator[](size_t place) const {
        auto [block, at] = find(place);
        return pool[blocks[block][at]];
    }

    void push(const Packet& packet) {
        uint32_t slot = pool.size();
        if (free.empty()) {
            pool.push_back(packet);
        } else {
            slot = free.back();
            free.pop_back();
            pool[slot] = packet;
        }
        if (blocks.empty() || blocks.back().size() == MOST_IN_BLOCK) blocks.emplace_back().reserve(MOST_IN_BLOCK);
        blocks.back().push_back(slot);
        count++;
    }

    Packet take(size_t place) {
        auto [block, at] = find(place);
        uint32_t slot = blocks[block][at];
        blocks[block].erase(blocks[block].begin() + at);
        if (blocks[block].empty()) blocks.erase(blocks.begin() + block);
        free.push_back(slot);
        count--;
        return pool[slot];
    }

  private:
    static constexpr size_t MOST_IN_BLOCK = 512;

    std::pair<size_t, size_t> find(size_t place) const {
        size_t block = 0;
        while (place >= blocks[block].size()) place -= blocks[block++].size();
        return {block, place};
    }

    std::vector<Packet> pool;
    std::vector<uint32_t> free;                 // the slots of the pool that are free
    std::vector<std::vector<uint32_t>> blocks;  // the slots of the packets, in order
    size_t count = 0;
};
