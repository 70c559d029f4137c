// Reads charts with the least rounds that the planner found on them, times two other ways to find them, and prints a table.
//
// The input is what the bench program prints: for each chart a line "NAME PORTS LEGS", a line "FROM TO HOURS DOLLARS" for
// each leg, a line "DOLLARS HOURS" of the rate found, a line "COUNT LEG LEG .." of the round found, and a line "CALLS
// NANOSECONDS" of the least time of so many calls.
#include <boost/graph/adjacency_list.hpp>
#include <boost/graph/howard_cycle_ratio.hpp>
#include <algorithm>
#include <chrono>
#include <cstdint>
#include <cstdio>
#include <cstdlib>
#include <iostream>
#include <string>
#include <vector>

struct Leg {
    int from, to;
    std::int64_t hours, dollars;
};

// What a round costs and takes together.
struct Rate {
    std::int64_t dollars = 0, hours = 0;
};

struct Chart {
    std::string name;
    int ports = 0;
    std::vector<Leg> legs;
    Rate ours;
    std::vector<int> our_round;
    double our_time = 0; // nanoseconds a call
};

[[noreturn]] static void fail(const std::string& why) {
    std::cerr << "peers: " << why << '\n';
    std::exit(1);
}

static bool read_chart(std::istream& in, Chart& chart) {
    std::size_t count = 0;
    if (!(in >> chart.name >> chart.ports >> count)) return false;
    chart.legs.resize(count);
    for (Leg& leg : chart.legs) in >> leg.from >> leg.to >> leg.hours >> leg.dollars;
    in >> chart.ours.dollars >> chart.ours.hours >> count;
    chart.our_round.resize(count);
    for (int& n : chart.our_round) in >> n;
    double calls = 0, span = 0;
    in >> calls >> span;
    if (!in || chart.our_round.empty() || calls < 1) fail("a chart on which no round was found, or not the bench program's output");
    chart.our_time = span / calls;
    return true;
}

// The sums of a round, or hours of 0 where its legs do not close.
static Rate sums(const Chart& chart, const std::vector<int>& round) {
    Rate rate;
    for (std::size_t i = 0; i < round.size(); i++) {
        const Leg& leg = chart.legs[round[i]];
        if (leg.to != chart.legs[round[(i + 1) % round.size()]].from) return {};
        rate.dollars += leg.dollars;
        rate.hours += leg.hours;
    }
    return rate;
}

// Whether two rates are equal, multiplied across.
static bool equal(Rate a, Rate b) {
    return a.hours > 0 && b.hours > 0 && (__int128)a.dollars * b.hours == (__int128)b.dollars * a.hours;
}

// Boost's Howard: weights are whole numbers, its reckoning is in doubles.
using Graph = boost::adjacency_list<boost::vecS, boost::vecS, boost::directedS, boost::no_property,
    boost::property<boost::edge_weight_t, std::int64_t,
        boost::property<boost::edge_weight2_t, std::int64_t, boost::property<boost::edge_index_t, int>>>>;
using Edge = boost::graph_traits<Graph>::edge_descriptor;

static void build(const Chart& chart, Graph& graph) {
    for (int n = 0; n < (int)chart.legs.size(); n++) {
        const Leg& leg = chart.legs[n];
        Graph::edge_property_type properties(leg.dollars);
        properties.m_base.m_value = leg.hours;
        properties.m_base.m_base.m_value = n;
        boost::add_edge(leg.from, leg.to, properties, graph);
    }
}

static void solve_boost(const Graph& graph, std::vector<int>& round) {
    std::vector<Edge> cycle;
    boost::minimum_cycle_ratio(graph, boost::get(boost::vertex_index, graph), boost::get(boost::edge_weight, graph),
        boost::get(boost::edge_weight2, graph), &cycle);
    round.clear();
    for (Edge e : cycle) round.push_back(boost::get(boost::edge_index, graph, e));
}

// Howard's method on arrays: a leg chosen at each port, the cheapest round that the chosen legs close, the values of the
// ports against its rate, and better legs by these values, until there is none. Every port needs a leg that leaves it.
struct Howard {
    std::vector<double> value;
    std::vector<int> chosen, mark, first, order, by_start, by_to, next_to, queue;
    std::vector<int> round;

    // The legs in the order of the ports that they leave.
    void sort_legs(const Chart& chart) {
        const int ports = chart.ports, count = (int)chart.legs.size();
        first.assign(ports + 1, 0);
        order.resize(count);
        for (const Leg& leg : chart.legs) first[leg.from + 1]++;
        for (int p = 0; p < ports; p++) {
            if (first[p + 1] == 0) fail("a port that no leg leaves");
            first[p + 1] += first[p];
        }
        by_start.assign(first.begin(), first.end() - 1);
        for (int n = 0; n < count; n++) order[by_start[chart.legs[n].from]++] = n;
    }

    // The cheapest round of the chosen legs; returns a port on it.
    int cheapest_chosen(const Chart& chart, Rate& best) {
        const int ports = chart.ports;
        int start = -1;
        mark.assign(ports, -1);
        for (int p = 0; p < ports; p++) {
            int at = p;
            while (mark[at] < 0) {
                mark[at] = p;
                at = chart.legs[chosen[at]].to;
            }
            if (mark[at] != p) continue;
            Rate rate;
            int on = at;
            do {
                const Leg& leg = chart.legs[chosen[on]];
                rate.dollars += leg.dollars;
                rate.hours += leg.hours;
                on = leg.to;
            } while (on != at);
            if (start < 0 || rate.dollars * best.hours < best.dollars * rate.hours) {
                best = rate;
                start = at;
            }
        }
        return start;
    }

    // The values of the ports whose chosen legs lead to the round, backward from it; the others keep theirs.
    void settle_values(const Chart& chart, int start, double ratio) {
        const int ports = chart.ports;
        by_to.assign(ports, -1);
        next_to.assign(ports, -1);
        for (int p = 0; p < ports; p++) {
            const int to = chart.legs[chosen[p]].to;
            next_to[p] = by_to[to];
            by_to[to] = p;
        }
        queue.clear();
        queue.push_back(start);
        for (std::size_t i = 0; i < queue.size(); i++) {
            const int to = queue[i];
            for (int p = by_to[to]; p >= 0; p = next_to[p]) {
                if (p == start) continue;
                const Leg& leg = chart.legs[chosen[p]];
                value[p] = value[to] + leg.dollars - ratio * leg.hours;
                queue.push_back(p);
            }
        }
    }

    bool choose_better(const Chart& chart, double ratio) {
        bool better = false;
        for (int p = 0; p < chart.ports; p++) {
            for (int i = first[p]; i < first[p + 1]; i++) {
                const Leg& leg = chart.legs[order[i]];
                const double offer = value[leg.to] + leg.dollars - ratio * leg.hours;
                if (offer < value[p] - 1e-7) {
                    value[p] = offer;
                    chosen[p] = order[i];
                    better = true;
                }
            }
        }
        return better;
    }

    void solve(const Chart& chart) {
        const int ports = chart.ports;
        sort_legs(chart);
        chosen.resize(ports);
        value.assign(ports, 0);
        for (int p = 0; p < ports; p++) {
            chosen[p] = order[first[p]];
            for (int i = first[p]; i < first[p + 1]; i++) {
                const Leg &leg = chart.legs[order[i]], &old = chart.legs[chosen[p]];
                if (leg.dollars * old.hours < old.dollars * leg.hours) chosen[p] = order[i];
            }
        }
        int start;
        double ratio;
        do {
            Rate best;
            start = cheapest_chosen(chart, best);
            ratio = (double)best.dollars / (double)best.hours;
            settle_values(chart, start, ratio);
        } while (choose_better(chart, ratio));
        round.clear();
        int at = start;
        do {
            round.push_back(chosen[at]);
            at = chart.legs[chosen[at]].to;
        } while (at != start);
    }
};

// Nanoseconds a call: the least of 15 runs of as many calls as take 2 milliseconds.
template <typename F>
static double time_of(F call) {
    using clock = std::chrono::steady_clock;
    auto run = [&](long calls) {
        auto start = clock::now();
        for (long i = 0; i < calls; i++) call();
        return std::chrono::duration<double, std::nano>(clock::now() - start).count();
    };
    long calls = 1;
    while (run(calls) < 2e6) calls *= 2;
    double least = run(calls);
    for (int i = 0; i < 14; i++) least = std::min(least, run(calls));
    return least / (double)calls;
}

// The sums over the charts of one size.
struct Row {
    std::string name;
    int ports = 0, charts = 0, boost_equal = 0, plain_equal = 0;
    std::size_t legs = 0;
    double ours = 0, boost_whole = 0, boost_solve = 0, plain = 0;
};

int main() {
    std::vector<Row> rows;
    Howard howard;
    std::vector<int> round;
    for (Chart chart; read_chart(std::cin, chart);) {
        Rate own = sums(chart, chart.our_round);
        if (own.dollars != chart.ours.dollars || own.hours != chart.ours.hours || own.hours == 0)
            fail("the planner's rate is not that of its round");
        if (rows.empty() || rows.back().name != chart.name || rows.back().ports != chart.ports ||
            rows.back().legs != chart.legs.size()) {
            rows.emplace_back();
            rows.back().name = chart.name;
            rows.back().ports = chart.ports;
            rows.back().legs = chart.legs.size();
        }
        Row& row = rows.back();
        Graph graph(chart.ports);
        build(chart, graph);
        row.charts++;
        row.ours += chart.our_time;
        row.boost_whole += time_of([&] {
            Graph fresh(chart.ports);
            build(chart, fresh);
            solve_boost(fresh, round);
        });
        row.boost_solve += time_of([&] { solve_boost(graph, round); });
        auto judge = [&](const char* peer, const std::vector<int>& found, int& same) {
            Rate rate = sums(chart, found);
            if (equal(rate, chart.ours)) {
                same++;
                return;
            }
            std::cerr << peer << ": " << chart.name << ' ' << chart.ports << ' ' << chart.legs.size() << " chart " << row.charts
                      << ": " << rate.dollars << " in " << rate.hours << ", ours " << chart.ours.dollars << " in "
                      << chart.ours.hours << '\n';
        };
        judge("boost", round, row.boost_equal);
        row.plain += time_of([&] { howard.solve(chart); });
        judge("arrays", howard.round, row.plain_equal);
    }
    std::printf("| chart  | ports |  legs | charts | find_least | Boost, build and solve | Boost, solve |   arrays | same rate: Boost | arrays |\n");
    std::printf("|--------|------:|------:|-------:|-----------:|-----------------------:|-------------:|---------:|-----------------:|-------:|\n");
    for (const Row& row : rows) {
        const double n = row.charts * 1000.0;
        std::printf("| %-6s | %5d | %5zu | %6d | %10.2f | %22.2f | %12.2f | %8.2f | %11d of %d | %1d of %d |\n", row.name.c_str(), row.ports,
            row.legs, row.charts, row.ours / n, row.boost_whole / n, row.boost_solve / n, row.plain / n, row.boost_equal,
            row.charts, row.plain_equal, row.charts);
    }
    std::printf("Times are microseconds a call, the mean over the charts of a row.\n");
}
