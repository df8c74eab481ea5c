// The peers of our least cuts and of the start of a group's promises, over the group of a document on standard input, whose lines
// `device`, `link` and `promise` are read alone.
//   least_cuts cuts: the least value of a cut of each promised pair, one pair after another, by each peer over one graph that is built once
//   least_cuts tree: a Gomory-Hu tree, from which the least value of each pair can be told
// A line for each peer that is installed: its name, the least milliseconds of the processor of five times, and what the values of the promised pairs
// add up to, by which one sees that all found the same. LEMON is Debian's liblemon-dev, Boost's its libboost-graph-dev.
//   g++ -O3 -march=native -std=c++17 least_cuts.cpp -o least_cuts
#include <algorithm>
#include <cstdint>
#include <cstdio>
#include <ctime>
#include <functional>
#include <iostream>
#include <limits>
#include <sstream>
#include <string>
#include <unordered_map>
#include <vector>

#if __has_include(<lemon/preflow.h>)
#define HAS_LEMON
#include <lemon/gomory_hu.h>
#include <lemon/preflow.h>
#include <lemon/smart_graph.h>
#endif
#if __has_include(<boost/graph/boykov_kolmogorov_max_flow.hpp>)
#define HAS_BOOST
#include <boost/graph/adjacency_list.hpp>
#include <boost/graph/boykov_kolmogorov_max_flow.hpp>
#endif

struct Link {
    int a, b;
    std::int64_t capacity;
};

struct Network {
    int devices = 0;
    std::vector<Link> links;
    std::vector<std::pair<int, int>> promises;
};

static Network read_network(std::istream &input) {
    Network network;
    std::unordered_map<std::string, int> number_of;
    for (std::string text; std::getline(input, text);) {
        std::istringstream line(text);
        std::string word, name, a, b;
        std::int64_t number = 0;
        line >> word;
        if (word == "device" && line >> name) {
            number_of[name] = network.devices++;
        } else if (word == "link" && line >> name >> a >> b >> number) {
            network.links.push_back({number_of.at(a), number_of.at(b), number});
        } else if (word == "promise" && line >> a >> b) {
            network.promises.emplace_back(number_of.at(a), number_of.at(b));
        }
    }
    return network;
}

// Does a work five times, and prints the least time with what the work gave.
static void time_work(const char *name, const std::function<std::int64_t()> &work) {
    double least = std::numeric_limits<double>::max();
    std::int64_t sum = 0;
    for (int round = 0; round < 5; round++) {
        std::clock_t start = std::clock();
        sum = work();
        least = std::min(least, 1e3 * static_cast<double>(std::clock() - start) / CLOCKS_PER_SEC);
    }
    std::printf("%s %.3f %lld\n", name, least, static_cast<long long>(sum));
}

// Levels by a search from the source, then one way at a time along them, until a search does not reach the target.
class Dinic {
  public:
    explicit Dinic(const Network &network) : first_(network.devices, -1) {
        for (const Link &link : network.links) {
            add(link.a, link.b, link.capacity);
            add(link.b, link.a, link.capacity);
        }
    }

    std::int64_t least_cut(int source, int target) {
        for (Arc &arc : arcs_) {
            arc.room = arc.capacity;
        }
        std::int64_t value = 0;
        while (has_levels(source, target)) {
            next_ = first_;
            while (std::int64_t sent = send(source, target, std::numeric_limits<std::int64_t>::max())) {
                value += sent;
            }
        }
        return value;
    }

  private:
    struct Arc {
        int to, next;
        std::int64_t capacity, room;
    };

    void add(int from, int to, std::int64_t capacity) {
        arcs_.push_back({to, first_[from], capacity, capacity});
        first_[from] = static_cast<int>(arcs_.size()) - 1;
    }

    bool has_levels(int source, int target) {
        levels_.assign(first_.size(), -1);
        levels_[source] = 0;
        reached_.assign(1, source);
        for (std::size_t at = 0; at < reached_.size(); at++) {
            int node = reached_[at];
            for (int arc = first_[node]; arc >= 0; arc = arcs_[arc].next) {
                if (arcs_[arc].room > 0 && levels_[arcs_[arc].to] < 0) {
                    levels_[arcs_[arc].to] = levels_[node] + 1;
                    reached_.push_back(arcs_[arc].to);
                }
            }
        }
        return levels_[target] >= 0;
    }

    std::int64_t send(int node, int target, std::int64_t most) {
        if (node == target) {
            return most;
        }
        for (int &arc = next_[node]; arc >= 0; arc = arcs_[arc].next) {
            if (arcs_[arc].room > 0 && levels_[arcs_[arc].to] == levels_[node] + 1) {
                std::int64_t sent = send(arcs_[arc].to, target, std::min(most, arcs_[arc].room));
                if (sent > 0) {
                    // the two arcs of a link stand side by side, and each is the other's way back
                    arcs_[arc].room -= sent;
                    arcs_[arc ^ 1].room += sent;
                    return sent;
                }
            }
        }
        return 0;
    }

    std::vector<int> first_, next_, levels_, reached_;
    std::vector<Arc> arcs_;
};

static void time_dinic(const Network &network) {
    Dinic dinic(network);
    time_work("Dinic", [&] {
        std::int64_t sum = 0;
        for (auto [a, b] : network.promises) {
            sum += dinic.least_cut(a, b);
        }
        return sum;
    });
}

#ifdef HAS_LEMON
// The first phase of push-relabel alone, which gives the least value.
static void time_push_relabel(const Network &network) {
    using Graph = lemon::SmartDigraph;
    Graph graph;
    for (int device = 0; device < network.devices; device++) {
        graph.addNode();
    }
    Graph::ArcMap<std::int64_t> capacities(graph);
    for (const Link &link : network.links) {
        capacities[graph.addArc(graph.nodeFromId(link.a), graph.nodeFromId(link.b))] = link.capacity;
        capacities[graph.addArc(graph.nodeFromId(link.b), graph.nodeFromId(link.a))] = link.capacity;
    }
    time_work("LEMON's push-relabel", [&] {
        std::int64_t sum = 0;
        for (auto [a, b] : network.promises) {
            lemon::Preflow<Graph, Graph::ArcMap<std::int64_t>> flow(graph, capacities, graph.nodeFromId(a), graph.nodeFromId(b));
            flow.runMinCut();
            sum += flow.flowValue();
        }
        return sum;
    });
}

// The tree alone is timed, and asked for the values once.
static void time_tree(const Network &network) {
    using Graph = lemon::SmartGraph;
    using Capacities = Graph::EdgeMap<std::int64_t>;
    Graph graph;
    for (int device = 0; device < network.devices; device++) {
        graph.addNode();
    }
    Capacities capacities(graph);
    for (const Link &link : network.links) {
        capacities[graph.addEdge(graph.nodeFromId(link.a), graph.nodeFromId(link.b))] = link.capacity;
    }
    std::int64_t sum = 0;
    lemon::GomoryHu<Graph, Capacities> asked(graph, capacities);
    asked.run();
    for (auto [a, b] : network.promises) {
        sum += asked.minCutValue(graph.nodeFromId(a), graph.nodeFromId(b));
    }
    time_work("LEMON's GomoryHu", [&] {
        lemon::GomoryHu<Graph, Capacities> tree(graph, capacities);
        tree.run();
        return sum;
    });
}
#endif

#ifdef HAS_BOOST
static void time_boykov_kolmogorov(const Network &network) {
    using namespace boost;
    using Traits = adjacency_list_traits<vecS, vecS, directedS>;
    using OfNodes = property<vertex_index_t, long, property<vertex_color_t, default_color_type, property<vertex_distance_t, long, property<vertex_predecessor_t, Traits::edge_descriptor>>>>;
    using OfArcs = property<edge_capacity_t, std::int64_t, property<edge_residual_capacity_t, std::int64_t, property<edge_reverse_t, Traits::edge_descriptor>>>;
    using Graph = adjacency_list<vecS, vecS, directedS, OfNodes, OfArcs>;
    Graph graph(network.devices);
    for (const Link &link : network.links) {
        auto there = add_edge(link.a, link.b, graph).first, back = add_edge(link.b, link.a, graph).first;
        get(edge_capacity, graph)[there] = get(edge_capacity, graph)[back] = link.capacity;
        get(edge_reverse, graph)[there] = back;
        get(edge_reverse, graph)[back] = there;
    }
    time_work("Boost's Boykov-Kolmogorov", [&] {
        std::int64_t sum = 0;
        for (auto [a, b] : network.promises) {
            sum += boykov_kolmogorov_max_flow(graph, static_cast<std::size_t>(a), static_cast<std::size_t>(b));
        }
        return sum;
    });
}
#endif

int main(int count, char **words) {
    std::string work = count > 1 ? words[1] : "";
    if (work != "cuts" && work != "tree") {
        std::fputs("least_cuts: cuts or tree\n", stderr);
        return 2;
    }
    Network network = read_network(std::cin);
    if (work == "cuts") {
        time_dinic(network);
    }
#ifdef HAS_LEMON
    work == "cuts" ? time_push_relabel(network) : time_tree(network);
#endif
#ifdef HAS_BOOST
    if (work == "cuts") {
        time_boykov_kolmogorov(network);
    }
#endif
}
