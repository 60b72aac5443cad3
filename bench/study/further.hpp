// The further columns of rows, and the rows of single broadcasts, by docs/GROWING.md ("Rows").
#pragma once
#include "growing.hpp"
#include "shape.hpp"

/// A number of parts with four decimal digits, or nothing.
inline std::string decimal(std::optional<uint64_t> parts) {
    if (!parts) return "";
    char text[32];
    snprintf(text, sizeof text, "%lu.%04lu", *parts / PARTS, *parts % PARTS);
    return text;
}

constexpr const char* PHASES[] = {"settle", "crash", "heal"};
constexpr const char* COST_COLUMNS[] = {"gossip", "ihave", "graft", "prune", "hops", "redundancy"};
constexpr const char* SHAPE_COLUMNS[] = {"largest",   "clustering", "path",     "diameter",
                                         "degree_25", "degree_50",  "degree_75", "articulations"};

template <class Columns>
void print_names(const Columns& columns) {
    for (const char* phase : PHASES)
        for (const char* column : columns) printf(",%s_%s", phase, column);
}

inline void print_costs(const Phase& phase) {
    Cost all;
    uint64_t redundancies = 0, told = 0;
    for (const Cost& cost : phase.costs) {
        all.hops += cost.hops;
        all.gossip += cost.gossip;
        all.ihave += cost.ihave;
        all.graft += cost.graft;
        redundancies += cost.redundancy().value_or(0);
        told += cost.redundancy().has_value();
    }
    std::optional<uint64_t> hops, redundancy;
    if (!phase.costs.empty()) hops = all.hops * PARTS / phase.costs.size();
    if (told > 0) redundancy = redundancies / told;
    printf(",%lu,%lu,%lu,%lu,%s,%s", all.gossip, all.ihave, all.graft, phase.prunes, decimal(hops).c_str(),
           decimal(redundancy).c_str());
}

inline void print_shape(const Phase& phase) {
    Shape shape(phase.graph);
    printf(",%zu,%s,%s,%zu,%zu,%zu,%zu,%zu", shape.largest, decimal(shape.clustering).c_str(),
           decimal(shape.path).c_str(), shape.diameter, shape.quartiles[0], shape.quartiles[1], shape.quartiles[2],
           shape.articulations);
}

/// What rows have behind those of `overlay sweep`.
struct Further {
    bool costs = false, shape = false;

    bool any() const { return costs || shape; }

    void print_header() const {
        if (costs) print_names(COST_COLUMNS);
        if (shape) print_names(SHAPE_COLUMNS);
    }

    void print(const std::vector<Phase>& phases) const {
        if (costs) std::for_each(phases.begin(), phases.end(), print_costs);
        if (shape) std::for_each(phases.begin(), phases.end(), print_shape);
    }
};

constexpr const char* MESSAGE_COLUMNS = "phase,number,origin,live,delivered,hops,gossip,ihave,graft,prune";

/// A row for each broadcast of a phase, each behind the same fields.
inline void print_messages(const std::string& fields, const Phase& phase) {
    size_t number = 0;
    for (const Cost& cost : phase.costs)
        printf("%s,%s,%zu,%u,%zu,%lu,%lu,%lu,%lu,%lu,%lu\n", fields.c_str(), phase.name.c_str(), ++number, cost.origin,
               phase.graph.size(), cost.delivered, cost.hops, cost.gossip, cost.ihave, cost.graft, cost.prune);
}
