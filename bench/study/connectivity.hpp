// The links of a moment, and their node connectivity by Even's test, as docs/CONNECTIVITY.md describes it: plain
// maximum flow for each piece, one path more at a time.
#pragma once
#include <optional>
#include <vector>

#include "node.hpp"

/// The live nodes, by their places in the order of ids, and the neighbours of each, ascending.
struct Graph {
    std::vector<Id> ids;
    std::vector<std::vector<uint32_t>> neighbours;

    /// Two live nodes are linked if each holds the other.
    explicit Graph(const std::vector<Node>& nodes) {
        std::vector<uint32_t> places(nodes.size() + 1);
        for (const Node& node : nodes)
            if (node.lives) {
                places[node.me] = ids.size();
                ids.push_back(node.me);
            }
        neighbours.resize(ids.size());
        for (uint32_t place = 0; place < ids.size(); place++)
            for (Id other : nodes[ids[place] - 1].active) {
                const Node& held = nodes[other - 1];
                if (held.lives && held.active.has(ids[place])) neighbours[place].push_back(places[other]);
            }
    }

    size_t size() const { return ids.size(); }

    size_t links() const {
        size_t ends = 0;
        for (auto& row : neighbours) ends += row.size();
        return ends / 2;
    }

    size_t least_degree() const {
        size_t least = SIZE_MAX;
        for (auto& row : neighbours) least = std::min(least, row.size());
        return least;
    }

    bool are_linked(uint32_t a, uint32_t b) const {
        return std::binary_search(neighbours[a].begin(), neighbours[a].end(), b);
    }

    /// For each node the number of its component, which are counted in the order of their first nodes.
    std::vector<uint32_t> component_of_each() const {
        std::vector<uint32_t> found(size(), UINT32_MAX);
        uint32_t count = 0;
        for (uint32_t first = 0; first < size(); first++) {
            if (found[first] != UINT32_MAX) continue;
            std::vector<uint32_t> waiting{first};
            found[first] = count;
            while (!waiting.empty()) {
                uint32_t node = waiting.back();
                waiting.pop_back();
                for (uint32_t other : neighbours[node])
                    if (found[other] == UINT32_MAX) {
                        found[other] = count;
                        waiting.push_back(other);
                    }
            }
            count++;
        }
        return found;
    }

    /// The sizes of the components, in the order of their first nodes.
    std::vector<size_t> components() const {
        std::vector<size_t> sizes;
        for (uint32_t component : component_of_each()) {
            sizes.resize(std::max<size_t>(sizes.size(), component + 1));
            sizes[component]++;
        }
        return sizes;
    }
};

/// Paths from a source to different targets, that share only the source. A node has an entrance and an exit.
class Flow {
  public:
    explicit Flow(const Graph& graph)
        : graph(graph), before(graph.size()), came(2 * graph.size()), targets(graph.size()), ends(graph.size()) {}

    /// Whether there are so many paths from one node to neighbours of another, off this other one.
    bool has_pair(size_t level, uint32_t from, uint32_t other) {
        begin(from, 0, other);
        for (uint32_t target : graph.neighbours[other]) targets[target] = flow_mark;
        return has(level);
    }

    /// Whether there are so many paths from a node to nodes before it.
    bool has_fan(size_t level, uint32_t from) {
        begin(from, from, std::nullopt);
        return has(level);
    }

    /// After a search in vain: the nodes that were entered and not left, the minimum cut nearest to the source.
    std::vector<uint32_t> nearest_cut() const {
        std::vector<uint32_t> cut;
        for (uint32_t node = 0; node < graph.size(); node++)
            if (is_seen(entrance(node)) && !is_seen(exit(node))) cut.push_back(node);
        return cut;
    }

  private:
    struct Before {
        uint32_t flow = 0, node = 0;
    };
    struct Came {
        uint32_t search = 0, from = 0;
    };

    static uint32_t entrance(uint32_t node) { return 2 * node; }
    static uint32_t exit(uint32_t node) { return 2 * node + 1; }
    bool is_seen(uint32_t place) const { return came[place].search == search_mark; }
    bool has_path(uint32_t node) const { return before[node].flow == flow_mark; }
    bool can_end(uint32_t node) const {
        return (node < below || targets[node] == flow_mark) && ends[node] != flow_mark;
    }

    void begin(uint32_t from, uint32_t all_below, std::optional<uint32_t> but) {
        source = from;
        below = all_below;
        avoided = but;
        flow_mark++;
    }

    bool has(size_t level) {
        for (size_t found = 0; found < level; found++)
            if (!grow()) return false;
        return true;
    }

    void visit(uint32_t place, uint32_t from) {
        if (is_seen(place)) return;
        came[place] = {search_mark, from};
        waiting.push_back(place);
    }

    /// Seeks one path more, by a search in breadth; then it is held.
    bool grow() {
        search_mark++;
        waiting.clear();
        visit(exit(source), exit(source));
        for (size_t at = 0; at < waiting.size(); at++) {
            uint32_t place = waiting[at], node = place / 2;
            if (place == entrance(node)) {
                visit(has_path(node) ? exit(before[node].node) : exit(node), place);
                continue;
            }
            if (can_end(node)) {
                ends[node] = flow_mark;
                hold(place);
                return true;
            }
            if (has_path(node)) visit(entrance(node), place);
            for (uint32_t other : graph.neighbours[node])
                if (other != source && other != avoided) visit(entrance(other), place);
        }
        return false;
    }

    /// Changes the paths along the way to a place that was found.
    void hold(uint32_t place) {
        std::vector<std::pair<uint32_t, uint32_t>> fresh;
        while (came[place].from != place) {
            uint32_t last = came[place].from;
            if (place / 2 != last / 2) {
                if (place % 2 == 0)
                    fresh.push_back({place / 2, last / 2});
                else
                    before[last / 2].flow = 0;
            }
            place = last;
        }
        for (auto [node, from] : fresh) before[node] = {flow_mark, from};
    }

    const Graph& graph;
    // all nodes below `below` are targets, and those that are marked
    uint32_t source = 0, below = 0, flow_mark = 0, search_mark = 0;
    std::optional<uint32_t> avoided;
    std::vector<Before> before;           // from which node a path comes to a node
    std::vector<Came> came;               // from which place a search came to a place
    std::vector<uint32_t> targets, ends;  // marked by the number of the flow that they are of
    std::vector<uint32_t> waiting;
};

/// The number of a graph, and the ids of its cut if two nodes are not linked.
struct Connectivity {
    size_t k = 0;
    std::vector<Id> cut;
};

class EvenTest {
  public:
    explicit EvenTest(const Graph& graph) : graph(graph), flow(graph) {}

    Connectivity answer() {
        if (graph.links() == graph.size() * (graph.size() - 1) / 2) return {graph.size() - 1, {}};
        size_t level = 1;
        while (is_good(level)) level++;
        Connectivity found{level - 1, {}};
        for (uint32_t place : flow.nearest_cut()) found.cut.push_back(graph.ids[place]);
        return found;
    }

  private:
    /// Whether all pieces of a level are good. If not, the search of the first one that is not stands in `flow`.
    bool is_good(size_t level) {
        for (uint32_t j = 1; j < level && j < graph.size(); j++)
            for (uint32_t i = 0; i < j; i++)
                if (!graph.are_linked(i, j) && !flow.has_pair(level, i, j)) return false;
        for (uint32_t j = level; j < graph.size(); j++)
            if (!flow.has_fan(level, j)) return false;
        return true;
    }

    const Graph& graph;
    Flow flow;
};
