// simulate OPTIONS: grows overlays by docs/GROWING.md, also large ones.
//
// What is proved of the tool is not proved of this program: it is plain C++, written from the documents alone. It is
// held against the tool, byte for byte (equal.py), up to 32,768 nodes; beyond that nothing vouches for it but the same
// code.
//
// build: g++ -std=c++17 -O2 -o simulate simulate.cpp
#include <cerrno>
#include <cstdio>
#include <cstdlib>
#include <cstring>
#include <map>

#include "further.hpp"

namespace {

constexpr const char* HELP =
    R"(usage: simulate OPTIONS [--runs N] [MODE] [--exact N]

OPTIONS are those of docs/GROWING.md, with any number of nodes; --sequential, --sender N and --detect are among them
("Further options"). Each but --seed takes a list, as --active 3,4,5: all settings are grown, that of the first option
of the table varying slowest, each with N seeds from --seed on (1 without --runs). MODE is one of:

  (no mode)    three lines for each overlay, one for each phase, for people
  --csv        a row for each overlay, as `overlay sweep` has it, with a header; --costs and --shape, which may stand
               together, put the columns of docs/GROWING.md behind it
  --messages   a row for each broadcast, with a header, as `overlay sweep --messages` has it; this needs --sequential
  --scenario   the scenario that `overlay grow` prints
  --graph      the settled overlay, as a graph file for `overlay analyse`
  --fates      a row for each overlay, of the settled one: components, and what became of the nodes that are alone
  --degrees    a row for each overlay: how many nodes of the settled overlay have each number of links, for one active
               size; and of those with one link, how many have a neighbour whose active view is full
  --alone      a line for each node that is alone in the settled overlay
  --far        a row for each overlay, of the settled one: links, the largest component, its paths, and how far the
               node is that is farthest from a node, in the mean of all: the hops of a broadcast that is flooded
  --healing    a row before each round of shuffles of the phase heal, and one after the last: live nodes, the largest
               component, and what broadcasts delivered, which are made then, and not only at the end of the phase
  --splits     a row for each part that a birth, and the turns after it, cut off the rest of its component while nodes
               join; and one for each birth that made one component of several
  --exact N    up to N nodes the node connectivity is found exactly (512); beyond that only whether it is 0

What the tool has no option for:
  --reports-at-once   all reports come before a packet moves when the overlay begins to heal
  --one-contact       everybody joins by node 1
  --until-full        an attempt that found a neighbour goes on while the active view has a free place
  --fill              a node with a free place starts an attempt before it starts a shuffle
  --pass-on           whoever an attempt finds gets the newest broadcast too, if the node that looked for it has that
  --flood             a broadcast goes to all neighbours, and nobody sends PRUNE
  --only PHASE        broadcasts are made in the phase settle, crash or heal alone
  --grow-once         the crashes of a list befall the same overlay, which is grown once for each seed: the same rows,
                      sooner, in another order
)";

[[noreturn]] void refuse(const std::string& why) {
    fprintf(stderr, "%s\n%s", why.c_str(), HELP);
    exit(2);
}

enum class Mode { People, Csv, Messages, Scenario, Fates, Degrees, Alone, Splits, Graph, Far, Healing };

// Options as words: each option of the table, in its order, with the values that it may take.

struct Limits {
    const char* name;
    uint64_t least, most;
    bool is_further = false;  // it has no column in the rows of `overlay sweep`
};

constexpr uint64_t ANY = UINT64_MAX;
constexpr Limits TABLE[] = {{"nodes", 1, 100000000},
                            {"active", 1, 16},
                            {"passive", 1, 64},
                            {"arwl", 0, 15},
                            {"prwl", 0, 15},
                            {"ka", 0, 8},
                            {"kp", 0, 8},
                            {"ttl", 1, 15},
                            {"refill", 0, 0},
                            {"seed", 0, ANY},
                            {"loss-join", 0, 100},
                            {"loss", 0, 100},
                            {"repeat", 0, 99},
                            {"order", 0, 0},
                            {"pace", 0, 65536},
                            {"rounds", 0, 1000},
                            {"crash", 0, 99},
                            {"heal", 0, 1000},
                            {"broadcasts", 0, 1000},
                            {"sequential", 0, 1, true},
                            {"sender", 1, 100000000, true},
                            {"detect", 0, 1, true}};

using Setting = std::map<std::string, std::string>;

const Setting DEFAULTS = {
    {"nodes", "100"},    {"active", "5"},     {"passive", "30"},   {"arwl", "6"},   {"prwl", "3"},      {"ka", "3"},
    {"kp", "4"},         {"ttl", "4"},        {"refill", "never"}, {"seed", "0"},   {"loss-join", "0"}, {"loss", "0"},
    {"repeat", "0"},     {"order", "random"}, {"pace", ""},        {"rounds", "3"}, {"crash", "0"},     {"heal", "2"},
    {"broadcasts", "0"}, {"sequential", "0"}, {"sender", ""},      {"detect", "0"}};

/// Options that are said by their name alone, and what is then said: of which option which value.
const std::map<std::string, std::pair<const char*, const char*>> FLAGS = {
    {"crash-cut", {"crash", "cut"}}, {"sequential", {"sequential", "1"}}, {"detect", {"detect", "1"}}};

const std::map<std::string, Refill> REFILLS = {
    {"never", Refill::Never}, {"alone", Refill::Alone}, {"always", Refill::Always}};

uint64_t number(const std::string& name, const std::string& text) {
    char* end;
    errno = 0;
    uint64_t found = strtoull(text.c_str(), &end, 10);
    if (text.empty() || !isdigit(text[0]) || *end || errno) refuse("--" + name + ": " + text + " is no number");
    return found;
}

/// A value of an option in the words of the heading, if it may take it.
std::string value_of(const Limits& option, const std::string& text) {
    std::string name = option.name;
    if (name == "order") {
        if (text != "random" && text != "oldest") refuse("--order is random or oldest");
        return text;
    }
    if (name == "refill") {
        if (!REFILLS.count(text)) refuse("--refill is never, alone or always");
        return text;
    }
    if (name == "crash" && text == "cut") return text;
    uint64_t found = number(name, text);
    if (found < option.least || found > option.most) refuse("--" + name + ": " + text + " is out of its limits");
    return std::to_string(found);
}

std::vector<std::string> split(const std::string& text) {
    std::vector<std::string> parts{""};
    for (char c : text)
        if (c == ',')
            parts.emplace_back();
        else
            parts.back() += c;
    return parts;
}

Options options_of(Setting said) {
    auto as_number = [&](const char* name) { return number(name, said[name]); };
    Options options;
    options.nodes = as_number("nodes");
    options.params = {unsigned(as_number("active")), unsigned(as_number("passive")), unsigned(as_number("arwl")),
                      unsigned(as_number("prwl")),   unsigned(as_number("ka")),      unsigned(as_number("kp")),
                      unsigned(as_number("ttl")),    REFILLS.at(said["refill"])};
    if (options.params.prwl > options.params.arwl) refuse("--prwl is larger than --arwl");
    options.seed = as_number("seed");
    options.loss_join = as_number("loss-join");
    options.loss = as_number("loss");
    options.repeat = as_number("repeat");
    options.is_oldest = said["order"] == "oldest";
    if (!said["pace"].empty()) options.pace = as_number("pace");
    options.rounds = as_number("rounds");
    options.crash_cut = said["crash"] == "cut";
    if (!options.crash_cut) options.crash = as_number("crash");
    options.heal = as_number("heal");
    options.broadcasts = as_number("broadcasts");
    options.is_sequential = said["sequential"] == "1";
    if (!said["sender"].empty()) options.sender = as_number("sender");
    if (options.sender > options.nodes) refuse("--sender is larger than --nodes");
    options.detects = said["detect"] == "1";
    return options;
}

std::string heading(const Setting& said) {
    std::string text = "overlay grow";
    for (const Limits& option : TABLE) {
        const std::string& value = said.at(option.name);
        if (value == DEFAULTS.at(option.name)) continue;
        auto flag = std::find_if(FLAGS.begin(), FLAGS.end(), [&](auto& it) {
            return it.second.first == std::string(option.name) && it.second.second == value;
        });
        text += " --" + (flag != FLAGS.end() ? flag->first : option.name + (" " + value));
    }
    return text;
}

// What is printed.

std::string fields(const Setting& said) {
    std::string text;
    for (const Limits& option : TABLE)
        if (strcmp(option.name, "seed") != 0 && !option.is_further) text += said.at(option.name) + ",";
    return text + said.at("seed");
}

std::string further_fields(const Setting& said) {
    std::string text;
    for (const Limits& option : TABLE)
        if (option.is_further) text += "," + said.at(option.name);
    return text;
}

std::string field_names() {
    std::string text;
    for (const Limits& option : TABLE)
        if (strcmp(option.name, "seed") != 0 && !option.is_further) text += std::string(option.name) + ",";
    text += "seed";
    std::replace(text.begin(), text.end(), '-', '_');
    return text;
}

std::string further_names() {
    std::string text;
    for (const Limits& option : TABLE)
        if (option.is_further) text += std::string(",") + option.name;
    return text;
}

void print_csv_header(Further further) {
    printf("%s", field_names().c_str());
    print_names(std::array{"nodes", "k", "least_degree", "links", "entries", "delivered"});
    if (further.any()) printf("%s", further_names().c_str());
    further.print_header();
    printf("\n");
}

std::string delivered(const Phase& phase) {
    if (phase.costs.empty()) return "";
    return decimal(phase.deliveries() * PARTS / (phase.costs.size() * phase.graph.size()));
}

std::string exact(const Phase& phase) { return phase.connectivity ? std::to_string(phase.connectivity->k) : ""; }

void print_csv(const Setting& said, const Growing& grown, Further further) {
    printf("%s", fields(said).c_str());
    for (const Phase& phase : grown.phases)
        printf(",%zu,%s,%zu,%zu,%u,%s", phase.graph.size(), exact(phase).c_str(), phase.graph.least_degree(),
               phase.graph.links(), phase.moment, delivered(phase).c_str());
    if (further.any()) printf("%s", further_fields(said).c_str());
    further.print(grown.phases);
    printf("\n");
}

size_t nodes_of_degree(const Graph& graph, size_t degree) {
    return std::count_if(graph.neighbours.begin(), graph.neighbours.end(),
                         [&](auto& row) { return row.size() == degree; });
}

void print_for_people(const Phase& phase) {
    const Graph& graph = phase.graph;
    auto sizes = graph.components();
    std::string share = delivered(phase);
    printf("%-6s entries %u nodes %zu components %zu largest %zu alone %zu least degree %zu links %zu k %s%s%s\n",
           phase.name.c_str(), phase.moment, graph.size(), sizes.size(), *std::max_element(sizes.begin(), sizes.end()),
           nodes_of_degree(graph, 0), graph.least_degree(), graph.links(),
           phase.connectivity ? exact(phase).c_str() : "1 or more", share.empty() ? "" : " delivered ", share.c_str());
    fflush(stdout);
}

void print_degrees_header(unsigned most) {
    printf("%s,nodes,full_beside_one", field_names().c_str());
    for (unsigned degree = 0; degree <= most; degree++) printf(",degree_%u", degree);
    printf("\n");
}

/// How many nodes with one link have a neighbour whose active view is full.
size_t full_beside_one(const Graph& graph, size_t active_size) {
    return std::count_if(graph.neighbours.begin(), graph.neighbours.end(),
                         [&](auto& row) { return row.size() == 1 && graph.neighbours[row[0]].size() == active_size; });
}

void print_degrees(const Setting& said, const Graph& graph, unsigned most) {
    printf("%s,%zu,%zu", fields(said).c_str(), graph.size(), full_beside_one(graph, most));
    for (unsigned degree = 0; degree <= most; degree++) printf(",%zu", nodes_of_degree(graph, degree));
    printf("\n");
}

/// What became of the nodes that are alone at a moment, and of the views of all nodes then.
struct Fates {
    size_t components = 0, largest = 0, least_degree = 0, alone = 0, never_linked = 0, by_disconnect = 0,
           by_own_drop = 0, hold_somebody = 0, have_passive = 0, are_passive = 0, half_links = 0;

    Fates(const Graph& graph, const std::vector<Node>& nodes) {
        auto sizes = graph.components();
        components = sizes.size();
        largest = *std::max_element(sizes.begin(), sizes.end());
        least_degree = graph.least_degree();
        std::vector<bool> is_passive(nodes.size() + 1);
        for (const Node& node : nodes)
            for (Id other : node.passive) is_passive[other] = true;
        for (size_t place = 0; place < graph.size(); place++) {
            const Node& node = nodes[graph.ids[place] - 1];
            half_links += node.active.size() - graph.neighbours[place].size();
            if (!graph.neighbours[place].empty()) continue;
            alone++;
            hold_somebody += !node.active.empty();
            never_linked += node.ups == 0;
            by_disconnect += node.active.empty() && node.last_loss == Loss::Disconnect;
            by_own_drop += node.active.empty() && node.last_loss == Loss::OwnDrop;
            have_passive += !node.passive.empty();
            are_passive += is_passive[node.me];
        }
    }
};

void print_fates_header() {
    printf(
        "%s,components,largest,least_degree,alone,never_linked,by_disconnect,by_own_drop,hold_somebody,have_passive,"
        "are_passive,"
        "half_links\n",
        field_names().c_str());
}

void print_fates(const Setting& said, const Fates& fates) {
    printf("%s,%zu,%zu,%zu,%zu,%zu,%zu,%zu,%zu,%zu,%zu,%zu\n", fields(said).c_str(), fates.components, fates.largest,
           fates.least_degree, fates.alone, fates.never_linked, fates.by_disconnect, fates.by_own_drop,
           fates.hold_somebody, fates.have_passive, fates.are_passive, fates.half_links);
}

void print_far(const Setting& said, const Graph& graph) {
    Shape shape(graph);
    double nodes = graph.size(), pairs = double(shape.largest) * (shape.largest - 1);
    printf("%s,%.6f,%zu,%.6f,%.6f,%zu,%.6f\n", fields(said).c_str(), 2 * graph.links() / nodes, shape.largest,
           shape.coefficients / nodes, shape.all_steps / pairs, shape.diameter, double(shape.farthest) / shape.largest);
}

/// Of each phase `heal`, of which there is one before each round of shuffles, and one after the last.
void print_healing(const Setting& said, const std::vector<Phase>& phases) {
    for (size_t at = 2; at < phases.size(); at++) {
        auto sizes = phases[at].graph.components();
        printf("%s,%zu,%zu,%zu,%s\n", fields(said).c_str(), at - 2, phases[at].graph.size(),
               *std::max_element(sizes.begin(), sizes.end()), delivered(phases[at]).c_str());
    }
}

void print_graph(const Graph& graph) {
    for (Id node : graph.ids) printf("node %u\n", node);
    for (uint32_t place = 0; place < graph.size(); place++)
        for (uint32_t other : graph.neighbours[place])
            if (place < other) printf("link %u %u\n", graph.ids[place], graph.ids[other]);
}

void print_alone(const Graph& graph, const std::vector<Node>& nodes) {
    for (size_t place = 0; place < graph.size(); place++) {
        const Node& node = nodes[graph.ids[place] - 1];
        if (!graph.neighbours[place].empty()) continue;
        printf("node %u was linked %u times, lost the last at entry %u by %s, holds %zu active and %zu passive\n",
               node.me, node.ups, node.last_down, node.last_loss == Loss::Disconnect ? "DISCONNECT" : "another way",
               node.active.size(), node.passive.size());
    }
}

/// Follows the components of an overlay from birth to birth.
class Splits {
  public:
    void look(const Setting& said, const Graph& graph) {
        std::vector<uint32_t> now = graph.component_of_each();
        std::map<uint32_t, std::map<uint32_t, size_t>> parts;  // of each component before, how many nodes are where now
        std::map<uint32_t, std::map<uint32_t, size_t>> sources;
        for (size_t node = 0; node < before.size(); node++) {
            parts[before[node]][now[node]]++;
            sources[now[node]][before[node]]++;
        }
        for (auto& [component, sizes] : parts) print_parts(said, sizes);
        for (auto& [component, from] : sources)
            if (from.size() > 1) printf("%s,%zu,joined,%zu\n", fields(said).c_str(), now.size(), from.size());
        before = now;
    }

    static void print_header() { printf("%s,birth,what,size\n", field_names().c_str()); }

  private:
    /// All parts of a component but the largest were cut off.
    void print_parts(const Setting& said, const std::map<uint32_t, size_t>& sizes) {
        std::vector<size_t> ascending;
        for (auto& [component, size] : sizes) ascending.push_back(size);
        std::sort(ascending.begin(), ascending.end());
        for (size_t part = 0; part + 1 < ascending.size(); part++)
            printf("%s,%zu,cut off,%zu\n", fields(said).c_str(), before.size() + 1, ascending[part]);
    }

    std::vector<uint32_t> before;
};

// Runs.

struct Request {
    std::map<std::string, std::vector<std::string>> lists;
    uint64_t runs = 1, exact = 512;
    Mode mode = Mode::People;
    bool reports_at_once = false, one_contact = false, until_full = false, fills = false, floods = false,
         passes_on = false, grow_once = false;
    std::string only;
    Further further;
};

/// The options of a run, with those that the tool does not have.
Options options_for(const Request& request, const Setting& said) {
    Options options = options_of(said);
    options.reports_at_once = request.reports_at_once;
    options.one_contact = request.one_contact;
    options.each_round = request.mode == Mode::Healing;
    options.only = request.only;
    options.params.until_full = request.until_full;
    options.params.fills = request.fills;
    options.params.floods = request.floods;
    options.params.passes_on = request.passes_on;
    return options;
}

/// What is printed of an overlay when all its phases are over.
void print_grown(const Request& request, const Setting& said, const Options& options, const Growing& grown) {
    if (request.mode == Mode::Csv) print_csv(said, grown, request.further);
    if (request.mode == Mode::Healing) print_healing(said, grown.phases);
    if (request.mode == Mode::Messages)
        for (const Phase& phase : grown.phases) print_messages(fields(said) + further_fields(said), phase);
    if (request.mode != Mode::Scenario) return;
    const Params& p = options.params;
    std::string rule = p.refill == Refill::Never ? "" : "refill " + said.at("refill") + "\n";
    const char* scale = options.nodes <= PROFILE.most_born ? "" : "scale large\n";
    printf("# %s\nparams %u %u %u %u %u %u %u\nseed %lu\n%s%s%s", heading(said).c_str(), p.active, p.passive, p.arwl,
           p.prwl, p.ka, p.kp, p.ttl, options.seed, rule.c_str(), scale, grown.lines.c_str());
}

void run(const Request& request, Setting said) {
    Options options = options_for(request, said);
    Growing growing(options, request.exact, request.mode == Mode::Scenario);
    if (request.mode == Mode::People) printf("%s\n", heading(said).c_str());
    growing.watch = [&](const Phase& phase) {
        bool is_settled = phase.name == "settle";
        if (request.mode == Mode::People) print_for_people(phase);
        if (request.mode == Mode::Fates && is_settled) print_fates(said, Fates(phase.graph, growing.world.nodes));
        if (request.mode == Mode::Degrees && is_settled) print_degrees(said, phase.graph, options.params.active);
        if (request.mode == Mode::Graph && is_settled) print_graph(phase.graph);
        if (request.mode == Mode::Far && is_settled) print_far(said, phase.graph);
        if (request.mode == Mode::Alone && is_settled) print_alone(phase.graph, growing.world.nodes);
    };
    Splits splits;
    if (request.mode == Mode::Splits) growing.watch_birth = [&] { splits.look(said, Graph(growing.world.nodes)); };
    growing.begin();
    for (const std::string& crash : request.grow_once ? request.lists.at("crash") : std::vector{said["crash"]}) {
        said["crash"] = crash;
        options = options_for(request, said);
        Growing one = growing;
        one.end(options);
        print_grown(request, said, options, one);
    }
}

/// All settings of lists from an option of the table on, and all seeds of each.
int run_all(const Request& request, Setting said, size_t option) {
    if (option == std::size(TABLE)) {
        int status = 0;
        uint64_t first = number("seed", said["seed"]);
        for (uint64_t at = 0; at < request.runs; at++) {
            said["seed"] = std::to_string(first + at);
            try {
                run(request, said);
            } catch (const Refusal& refusal) {
                fprintf(stderr, "%s: %s\n", heading(said).c_str(), refusal.what());
                status = 1;
            }
        }
        return status;
    }
    auto list = request.lists.find(TABLE[option].name);
    bool is_later = request.grow_once && std::string("crash") == TABLE[option].name;
    if (list == request.lists.end() || is_later) return run_all(request, said, option + 1);
    int status = 0;
    for (const std::string& value : list->second) {
        said[list->first] = value;
        status |= run_all(request, said, option + 1);
    }
    return status;
}

/// What words ask for, besides the options.
const std::map<std::string, Mode> MODES = {
    {"csv", Mode::Csv},         {"messages", Mode::Messages}, {"scenario", Mode::Scenario}, {"fates", Mode::Fates},
    {"degrees", Mode::Degrees}, {"alone", Mode::Alone},       {"splits", Mode::Splits},     {"graph", Mode::Graph},
    {"far", Mode::Far},         {"healing", Mode::Healing}};

const std::map<std::string, bool Request::*> SWITCHES = {{"reports-at-once", &Request::reports_at_once},
                                                         {"one-contact", &Request::one_contact},
                                                         {"until-full", &Request::until_full},
                                                         {"fill", &Request::fills},
                                                         {"flood", &Request::floods},
                                                         {"pass-on", &Request::passes_on},
                                                         {"grow-once", &Request::grow_once}};

Request request_of(int count, char** words) {
    Request request;
    for (int at = 1; at < count; at++) {
        std::string word = words[at], name = word.substr(0, 2) == "--" ? word.substr(2) : "";
        auto next = [&] { return ++at < count ? std::string(words[at]) : (refuse(word + " lacks its value"), ""); };
        auto option = std::find_if(std::begin(TABLE), std::end(TABLE), [&](auto& it) { return name == it.name; });
        if (FLAGS.count(name)) {
            request.lists[FLAGS.at(name).first].push_back(FLAGS.at(name).second);
        } else if (option != std::end(TABLE)) {
            for (const std::string& part : split(next())) request.lists[name].push_back(value_of(*option, part));
        } else if (name == "runs") {
            request.runs = number(name, next());
        } else if (name == "exact") {
            request.exact = number(name, next());
        } else if (MODES.count(name)) {
            request.mode = MODES.at(name);
        } else if (SWITCHES.count(name)) {
            request.*SWITCHES.at(name) = true;
        } else if (name == "only") {
            request.only = next();
            if (std::find(std::begin(PHASES), std::end(PHASES), request.only) == std::end(PHASES))
                refuse("--only is settle, crash or heal");
        } else if (name == "costs") {
            request.further.costs = true;
        } else if (name == "shape") {
            request.further.shape = true;
        } else {
            refuse("no option " + word);
        }
    }
    if (request.grow_once && !request.lists.count("crash")) refuse("--grow-once needs --crash");
    if (request.mode == Mode::Messages && !request.lists.count("sequential")) refuse("--messages needs --sequential");
    if (request.mode != Mode::Csv && request.further.any()) refuse("--costs and --shape need --csv");
    return request;
}

}  // namespace

int main(int count, char** words) {
    Request request = request_of(count, words);
    if (request.mode == Mode::Csv) print_csv_header(request.further);
    if (request.mode == Mode::Messages)
        printf("%s%s,%s\n", field_names().c_str(), further_names().c_str(), MESSAGE_COLUMNS);
    if (request.mode == Mode::Fates) print_fates_header();
    if (request.mode == Mode::Far)
        printf("%s,links,largest,clustering,path,diameter,farthest\n", field_names().c_str());
    if (request.mode == Mode::Healing) printf("%s,round,live,largest,delivered\n", field_names().c_str());
    if (request.mode == Mode::Splits) Splits::print_header();
    if (request.mode == Mode::Degrees) {
        auto sizes = request.lists.count("active") ? request.lists["active"] : std::vector<std::string>{"5"};
        if (sizes.size() > 1) refuse("--degrees takes one active size");
        print_degrees_header(std::stoul(sizes[0]));
    }
    return run_all(request, DEFAULTS, 0);
}
