// The shape of a graph, by docs/GROWING.md ("The shape of an overlay").
#pragma once
#include "connectivity.hpp"
#include "costs.hpp"

class Shape {
  public:
    size_t largest = 0, diameter = 0;
    size_t articulations = 0;      // of the largest component
    uint64_t clustering = 0;       // in parts
    std::optional<uint64_t> path;  // in parts, if two nodes are in the largest component
    std::array<size_t, 3> quartiles;
    // for the study alone: the sums of the clustering coefficients of all nodes, and, in the largest component, of the
    // paths between two nodes, and of the steps from each node to the one that is farthest
    double coefficients = 0;
    uint64_t all_steps = 0, farthest = 0;

    explicit Shape(const Graph& graph) : graph(graph) {
        clustering = clustering_of_all();
        find_largest();
        for (size_t first = 0; first < largest; first += EACH) all_steps += steps_from(first);
        if (largest > 1) path = all_steps * PARTS / (largest * (largest - 1));
        find_quartiles();
        count_articulations();
    }

  private:
    /// A node's clustering coefficient is rounded down to so many parts of one.
    static constexpr uint64_t MILLION = 1000000;
    /// So many nodes are walked from at once, one for each bit of a word.
    static constexpr size_t EACH = 64;

    uint64_t clustering_of_all() {
        uint64_t millionths = 0;
        coefficients = 0;
        for (auto& row : graph.neighbours) {
            uint64_t linked = 0, pairs = row.size() * (row.size() - 1) / 2;
            for (size_t one = 0; one < row.size(); one++)
                for (size_t two = 0; two < one; two++) linked += graph.are_linked(row[one], row[two]);
            if (row.size() < 2) continue;
            millionths += linked * MILLION / pairs;
            coefficients += double(linked) / double(pairs);
        }
        return millionths / (MILLION / PARTS * graph.size());
    }

    void find_largest() {
        auto sizes = graph.components();
        auto of_each = graph.component_of_each();
        auto found = std::max_element(sizes.begin(), sizes.end());  // the first of the largest ones
        largest = *found;
        for (uint32_t node = 0; node < graph.size(); node++)
            if (of_each[node] == found - sizes.begin()) members.push_back(node);
    }

    /// The sum of the steps from up to 64 members of the largest component to all others.
    uint64_t steps_from(size_t first) {
        std::vector<uint64_t> seen(graph.size()), front(graph.size()), next(graph.size());
        for (size_t at = first; at < std::min(first + EACH, largest); at++)
            seen[members[at]] = front[members[at]] = uint64_t{1} << (at - first);
        uint64_t total = 0, reached = 1;
        for (uint64_t steps = 1; reached > 0; steps++) {
            reached = 0;
            uint64_t who_reached = 0;  // a bit for each member from which somebody is so far
            for (uint32_t node : members) {
                uint64_t comes = 0;
                for (uint32_t other : graph.neighbours[node]) comes |= front[other];
                next[node] = comes & ~seen[node];
                seen[node] |= comes;
                reached += __builtin_popcountll(next[node]);
                who_reached |= next[node];
            }
            total += steps * reached;
            farthest += __builtin_popcountll(who_reached);
            if (reached > 0) diameter = std::max<size_t>(diameter, steps);
            std::swap(front, next);
        }
        return total;
    }

    void find_quartiles() {
        std::vector<size_t> degrees;
        for (auto& row : graph.neighbours) degrees.push_back(row.size());
        std::sort(degrees.begin(), degrees.end());
        for (size_t part = 1; part <= 3; part++) quartiles[part - 1] = degrees[(part * degrees.size() + 3) / 4 - 1];
    }

    /// The nodes of the largest component whose crash splits it: by depth-first search, those from a child of which
    /// nothing before them is reached, and the first one if it has two children (Tarjan, SIAM J. Comput. 1, 1972).
    void count_articulations() {
        constexpr uint32_t NEVER = ~uint32_t{0};
        std::vector<uint32_t> entered(graph.size(), NEVER), lowest(graph.size()), parent(graph.size(), NEVER);
        std::vector<size_t> next(graph.size());
        std::vector<bool> splits(graph.size());
        uint32_t time = 0, children_of_first = 0, at = members.front();
        entered[at] = lowest[at] = time++;
        while (at != NEVER) {
            if (next[at] < graph.neighbours[at].size()) {
                uint32_t other = graph.neighbours[at][next[at]++];
                if (entered[other] == NEVER) {
                    parent[other] = at;
                    entered[other] = lowest[other] = time++;
                    at = other;
                } else {
                    lowest[at] = std::min(lowest[at], entered[other]);
                }
                continue;
            }
            uint32_t above = parent[at];
            if (above == members.front()) children_of_first++;
            else if (above != NEVER && lowest[at] >= entered[above]) splits[above] = true;
            if (above != NEVER) lowest[above] = std::min(lowest[above], lowest[at]);
            at = above;
        }
        splits[members.front()] = children_of_first > 1;
        articulations = std::count(splits.begin(), splits.end(), true);
    }

    const Graph& graph;
    std::vector<uint32_t> members;  // of the largest component
};
