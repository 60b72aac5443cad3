// The same method in plain C++: all pieces of a graph up to the first that is not good, one thread, every path kept.
// usage: port FILE, which has the numbers of nodes and links, and then each link by the places of its ends, from 1.
#include <sys/resource.h>

#include <algorithm>
#include <array>
#include <chrono>
#include <cstdint>
#include <cstdio>
#include <optional>
#include <vector>

constexpr size_t WORDS = 16;
using Row = std::array<uint64_t, WORDS>;
using Place = size_t;

size_t words;  // that are in use

bool has(const Row& row, Place p) { return row[p / 64] >> (p % 64) & 1; }
void put(Row& row, Place p) { row[p / 64] |= uint64_t{1} << (p % 64); }

/// Paths are sought from the source to targets, off the avoided places.
struct Net {
    const std::vector<Row>& rows;
    Row avoided{};
    Place source{};
    Row targets{};
};

/// A step of a search: over a link to `way`, or back where there is none.
struct Hop {
    Place node;
    std::optional<Place> way;
};

/// Paths, and what a search for one more works on. `from` says from where a path comes to a place.
struct Flow {
    std::vector<Place> order, parents, ends;
    std::vector<std::optional<Place>> ways, from, next;
    std::vector<Hop> hops;
    Row reached{}, seen{};

    explicit Flow(size_t nodes) : from(nodes), next(nodes) {}

    void reach(size_t at, std::optional<Place> way, Place node) {
        if (has(reached, node)) return;
        put(reached, node);
        order.push_back(node);
        parents.push_back(at);
        ways.push_back(way);
    }

    bool visit(const Net& net, size_t at) {
        Place x = order[at];
        const Row& row = net.rows[x];
        for (size_t i = 0; i < words; i++) {
            while (uint64_t fresh = row[i] & ~seen[i]) {
                Place w = 64 * i + __builtin_ctzll(fresh);
                put(seen, w);
                Place node = from[w].value_or(w);
                reach(at, w, node);
                if (has(net.targets, node)) return true;
            }
        }
        if (from[x]) {
            Place before = *from[x];
            reach(at, std::nullopt, before);
            if (has(net.targets, before)) return true;
        }
        return false;
    }

    bool search(const Net& net) {
        order.clear();
        parents.clear();
        ways.clear();
        std::fill_n(reached.begin(), words, 0);
        std::copy_n(net.avoided.begin(), words, seen.begin());
        put(seen, net.source);
        reach(0, std::nullopt, net.source);
        for (size_t at = 0; at < order.size(); at++)
            if (visit(net, at)) return true;
        return false;
    }

    bool augment(const Net& net) {
        if (!search(net)) return false;
        hops.clear();
        for (size_t at = order.size() - 1; at > 0; at = parents[at]) hops.push_back({order[at], ways[at]});
        std::reverse(hops.begin(), hops.end());
        ends.push_back(order.back());
        Place x = net.source;
        bool met = false;  // whether the walk met a path: only then may a closed round be left
        for (const Hop& hop : hops) {
            met = met || !hop.way || from[*hop.way];
            if (hop.way) from[*hop.way] = x; else from[x].reset();
            x = hop.node;
        }
        if (!met) return true;
        std::fill(next.begin(), next.end(), std::nullopt);
        for (Place end : ends)
            for (Place v = end; from[v]; v = *from[v]) next[v] = from[v];
        std::swap(from, next);
        return true;
    }

    /// Whether the net has so many paths; they are then held.
    bool seek(const Net& net, size_t level) {
        std::fill(from.begin(), from.end(), std::nullopt);
        ends.clear();
        for (size_t i = 0; i < words; i++) {
            uint64_t direct = net.rows[net.source][i] & net.targets[i] & ~net.avoided[i];
            for (; direct && ends.size() < level; direct &= direct - 1) {
                Place w = 64 * i + __builtin_ctzll(direct);
                from[w] = net.source;
                ends.push_back(w);
            }
        }
        while (ends.size() < level)
            if (!augment(net)) return false;
        return true;
    }

    /// The paths in one flat list, each from its end back to the source.
    std::vector<uint16_t> paths(const Net& net) const {
        std::vector<uint16_t> flat;
        for (Place end : ends) {
            for (Place v = end; from[v]; v = *from[v]) flat.push_back(v);
            flat.push_back(net.source);
        }
        flat.shrink_to_fit();
        return flat;
    }
};

/// What a piece came to, and its number of paths: a linked pair has none.
struct Settled {
    uint16_t level, i, j;
    std::vector<uint16_t> paths;
};

struct Sums {
    std::vector<Settled> kept;
    uint64_t paths = 0;
    bool is_split = false;

    void settle(Flow& flow, const Net& net, size_t level, size_t i, size_t j) {
        is_split = !flow.seek(net, level);
        if (is_split) return;
        paths += level;
        kept.push_back({uint16_t(level), uint16_t(i), uint16_t(j), flow.paths(net)});
    }
};

Sums analyse(const std::vector<Row>& rows) {
    size_t n = rows.size();
    Flow flow(n);
    Sums sums;
    for (size_t level = 1; level < n && !sums.is_split; level++) {
        for (size_t j = 1; j < level && !sums.is_split; j++)
            for (size_t i = 0; i < j && !sums.is_split; i++) {
                if (has(rows[i], j)) {
                    sums.kept.push_back({uint16_t(level), uint16_t(i), uint16_t(j), {}});
                    continue;
                }
                Net net{rows, {}, i, rows[j]};
                put(net.avoided, j);
                sums.settle(flow, net, level, i, j);
            }
        Row earlier{};
        for (size_t v = 0; v < level; v++) put(earlier, v);
        for (size_t j = level; j < n && !sums.is_split; j++) {
            sums.settle(flow, {rows, {}, j, earlier}, level, 0, j);
            put(earlier, j);
        }
    }
    return sums;
}

int main(int count, char** names) {
    FILE* file = count == 2 ? fopen(names[1], "r") : nullptr;
    size_t n, m;
    if (!file || fscanf(file, "%zu %zu", &n, &m) != 2) return 2;
    std::vector<Row> rows(n, Row{});
    words = (n + 63) / 64;
    for (size_t i = 0; i < m; i++) {
        size_t a, b;
        if (fscanf(file, "%zu %zu", &a, &b) != 2) return 2;
        put(rows[a - 1], b - 1);
        put(rows[b - 1], a - 1);
    }
    auto begun = std::chrono::steady_clock::now();
    Sums sums = analyse(rows);
    double ms = std::chrono::duration<double, std::milli>(std::chrono::steady_clock::now() - begun).count();
    rusage usage;
    getrusage(RUSAGE_SELF, &usage);
    unsigned long long paths = sums.paths;
    printf("%zu pieces %llu paths %.1f ms %ld KB\n", sums.kept.size(), paths, ms, usage.ru_maxrss);
}
