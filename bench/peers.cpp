// Times the split and the walk of libdesk.a, and where they are installed LEMON's and Boost's maximum flows on
// document 000's network, on every book of a folder: peers FOLDER. A line a time: kind, book, who, microseconds.
#include "platelayer.h"

#include <algorithm>
#include <chrono>
#include <cstdio>
#include <cstdlib>
#include <filesystem>
#include <fstream>
#include <functional>
#include <iterator>
#include <string>
#include <vector>

#if __has_include(<lemon/preflow.h>)
#define HAS_LEMON 1
#include <lemon/preflow.h>
#include <lemon/smart_graph.h>
#endif
#if __has_include(<boost/graph/boykov_kolmogorov_max_flow.hpp>)
#define HAS_BOOST 1
#include <boost/graph/adjacency_list.hpp>
#include <boost/graph/boykov_kolmogorov_max_flow.hpp>
#include <boost/graph/push_relabel_max_flow.hpp>
#endif

using Bytes = std::vector<uint8_t>;

static Bytes contents(const std::filesystem::path &path) {
    std::ifstream in(path, std::ios::binary);
    return Bytes(std::istreambuf_iterator<char>(in), {});
}

[[noreturn]] static void differs(const std::string &book, const char *who) {
    fprintf(stderr, "%s: %s has another answer\n", book.c_str(), who);
    exit(1);
}

// The median time of a call, over as many repeats as a tenth of a second holds, 15 to 401.
static double median(const std::function<void()> &call) {
    using clock = std::chrono::steady_clock;
    std::vector<double> times;
    double sum = 0;
    while (times.size() < 15 || (sum < 1e5 && times.size() < 401)) {
        auto before = clock::now();
        call();
        times.push_back(std::chrono::duration<double, std::micro>(clock::now() - before).count());
        sum += times.back();
    }
    std::nth_element(times.begin(), times.begin() + times.size() / 2, times.end());
    return times[times.size() / 2];
}

static void say(const char *kind, const std::string &book, const char *who, double time) {
    printf("%s\t%s\t%s\t%.2f\n", kind, book.c_str(), who, time);
}

// A book as a card, for the peers: they are given it read.
struct Card {
    int modules, nets;
    std::vector<uint8_t> mark;
    std::vector<int> weight, first, pins;
};

static int u16(const Bytes &bytes, size_t at) { return bytes[at] | bytes[at + 1] << 8; }

static Card card_of(const Bytes &bytes, int modules, int nets, int pins) {
    Card card{modules, nets, {}, {}, {0}, {}};
    for (int m = 0; m < modules; m++) card.mark.push_back(u16(bytes, 32 + 4 * m + 2));
    for (int n = 0; n < nets; n++) {
        card.weight.push_back(u16(bytes, 32 + 4 * modules + 4 * n));
        card.first.push_back(card.first.back() + u16(bytes, 32 + 4 * modules + 4 * n + 2));
    }
    for (int p = 0; p < pins; p++) card.pins.push_back(u16(bytes, 32 + 4 * modules + 4 * nets + 2 * p));
    return card;
}

// Document 000's network: two nodes a net, an arc of its weight between them, unbounded arcs at the pins.
static const int64_t UNBOUNDED = int64_t(1) << 40;

template <class Arc> static void network(const Card &card, Arc arc) {
    int source = card.modules + 2 * card.nets, sink = source + 1;
    for (int n = 0; n < card.nets; n++) {
        int in = card.modules + 2 * n, out = in + 1;
        arc(in, out, int64_t(card.weight[n]));
        for (int p = card.first[n]; p < card.first[n + 1]; p++) {
            arc(card.pins[p], in, UNBOUNDED);
            arc(out, card.pins[p], UNBOUNDED);
        }
    }
    for (int m = 0; m < card.modules; m++) {
        if (card.mark[m] == 1) arc(source, m, UNBOUNDED);
        if (card.mark[m] == 2) arc(m, sink, UNBOUNDED);
    }
}

#ifdef HAS_LEMON
static int64_t lemon_preflow(const Card &card) {
    using Graph = lemon::SmartDigraph;
    Graph graph;
    int nodes = card.modules + 2 * card.nets + 2;
    graph.reserveNode(nodes);
    graph.reserveArc(card.nets + 2 * int(card.pins.size()) + card.modules);
    for (int i = 0; i < nodes; i++) graph.addNode();
    Graph::ArcMap<int64_t> capacity(graph);
    network(card, [&](int from, int to, int64_t most) {
        capacity[graph.addArc(graph.nodeFromId(from), graph.nodeFromId(to))] = most;
    });
    lemon::Preflow<Graph, Graph::ArcMap<int64_t>> flow(graph, capacity, graph.nodeFromId(nodes - 2), graph.nodeFromId(nodes - 1));
    flow.run();
    return flow.flowValue();
}
#endif

#ifdef HAS_BOOST
using Traits = boost::adjacency_list_traits<boost::vecS, boost::vecS, boost::directedS>;
using VertexProperties =
    boost::property<boost::vertex_index_t, long,
    boost::property<boost::vertex_color_t, boost::default_color_type,
    boost::property<boost::vertex_distance_t, long,
    boost::property<boost::vertex_predecessor_t, Traits::edge_descriptor>>>>;
using EdgeProperties =
    boost::property<boost::edge_capacity_t, int64_t,
    boost::property<boost::edge_residual_capacity_t, int64_t,
    boost::property<boost::edge_reverse_t, Traits::edge_descriptor>>>;
using BoostGraph = boost::adjacency_list<boost::vecS, boost::vecS, boost::directedS, VertexProperties, EdgeProperties>;

static BoostGraph boost_network(const Card &card) {
    BoostGraph graph(card.modules + 2 * card.nets + 2);
    auto capacity = get(boost::edge_capacity, graph);
    auto reverse = get(boost::edge_reverse, graph);
    network(card, [&](int from, int to, int64_t most) {
        auto forth = add_edge(from, to, graph).first, back = add_edge(to, from, graph).first;
        capacity[forth] = most, capacity[back] = 0;
        reverse[forth] = back, reverse[back] = forth;
    });
    return graph;
}

static int64_t boost_push_relabel(const Card &card) {
    BoostGraph graph = boost_network(card);
    return push_relabel_max_flow(graph, num_vertices(graph) - 2, num_vertices(graph) - 1);
}

static int64_t boost_kolmogorov(const Card &card) {
    BoostGraph graph = boost_network(card);
    return boykov_kolmogorov_max_flow(graph, num_vertices(graph) - 2, num_vertices(graph) - 1);
}
#endif

static void time_split(const std::string &name, const Bytes &book) {
    int64_t answer[PLATELAYER_ANSWER];
    platelayer_read(book.data(), book.size(), answer);
    if (answer[PLATELAYER_NUMBER]) differs(name, "the reader");
    Card card = card_of(book, answer[3], answer[4], answer[5]);
    std::vector<uint8_t> near(PLATELAYER_SIDE_BYTES), far(PLATELAYER_SIDE_BYTES);
    std::vector<int32_t> flow(PLATELAYER_PINS);
    auto ours = [&] {
        platelayer_split(book.data(), book.size(), near.data(), near.size(), far.data(), far.size(), flow.data(), flow.size(), answer);
    };
    say("split", name, "platelayer", median(ours));
    int64_t price = answer[PLATELAYER_VALUE];
    platelayer_check(book.data(), book.size(), near.data(), near.size(), flow.data(), flow.size(), uint32_t(price), answer);
    if (answer[PLATELAYER_NUMBER]) differs(name, "the checker");
    auto peer = [&](const char *who, int64_t (*solve)(const Card &)) {
        if (solve(card) != price) differs(name, who);
        say("split", name, who, median([&] { solve(card); }));
    };
    (void)peer;
#ifdef HAS_LEMON
    peer("lemon preflow", lemon_preflow);
#endif
#ifdef HAS_BOOST
    peer("boost push-relabel", boost_push_relabel);
    peer("boost boykov-kolmogorov", boost_kolmogorov);
#endif
}

static void time_walk(const std::string &name, const Bytes &book, const std::filesystem::path &gate_path) {
    uint32_t kind;
    double a, b;
    std::ifstream(gate_path) >> kind >> a >> b;
    int64_t answer[PLATELAYER_ANSWER];
    std::vector<uint8_t> side(PLATELAYER_SIDE_BYTES), rows(PLATELAYER_ROW_BYTES * (PLATELAYER_MODULES + 1));
    auto ours = [&] {
        platelayer_walk(book.data(), book.size(), kind, a, b, side.data(), side.size(), rows.data(), rows.size(), answer);
    };
    say("walk", name, "platelayer", median(ours));
    say("rounds", name, "platelayer", answer[PLATELAYER_VALUE + 1]);
}

int main(int, char **words) {
    std::filesystem::path folder = words[1];
    std::vector<std::filesystem::path> paths;
    for (const char *part : {"split", "walk"})
        for (auto &entry : std::filesystem::directory_iterator(folder / part))
            if (entry.path().extension() == ".book") paths.push_back(entry.path());
    std::sort(paths.begin(), paths.end());
    for (auto &path : paths) {
        std::string name = path.stem().string();
        if (path.parent_path().filename() == "split")
            time_split(name, contents(path));
        else
            time_walk(name, contents(path), std::filesystem::path(path).replace_extension(".gate"));
    }
#ifndef HAS_LEMON
    fprintf(stderr, "skipped: LEMON is not installed (Debian: liblemon-dev)\n");
#endif
#ifndef HAS_BOOST
    fprintf(stderr, "skipped: Boost's graphs are not installed (Debian: libboost-graph-dev)\n");
#endif
}
