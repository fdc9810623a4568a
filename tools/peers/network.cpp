// Plans the trips of a feed as the field does it: by a time-space network, which LEMON's network simplex solves. tools/bench builds
// and calls it. It needs LEMON 1.3.1, Debian's liblemon-dev.
//
// A place has a line of nodes, one for each minute at which a trip departs there or an empty run leaves. A vehicle waits from node
// to node. An empty run leaves at the last arrival that still reaches a departure as the first one. A hub is the depot: it gives
// vehicles for the pull-out of a place, and takes them for its pull-in.
//
// Where a pull is longer than one by way of another place, that way must not be taken. Then a place has two lines: trips end in
// one, from which vehicles go home, and they depart from the other, to which vehicles come from the depot.
//
// It puts the processor seconds of the walks, of the building and of the simplex, each behind its name, and then the answer as
// blockdesk puts it.
//
// Example: g++ -O2 -o /tmp/network tools/peers/network.cpp && /tmp/network /tmp/peaks
#include <lemon/network_simplex.h>
#include <lemon/static_graph.h>

#include <cstdio>

#include "feed.hpp"

using Graph = lemon::StaticDigraph;
using Simplex = lemon::NetworkSimplex<Graph, long long, long long>;

struct Run { int from, leaves, to, reaches, minutes; };
struct Arc { int from, to; long long cost; };

void keep_each_once(std::vector<int> &minutes) {
    std::sort(minutes.begin(), minutes.end());
    minutes.erase(std::unique(minutes.begin(), minutes.end()), minutes.end());
}

// Whether a pull of a place is longer than one by way of another place.
bool has_detours(const Feed &feed) {
    for (size_t from = 0; from < feed.walks.size(); from++)
        for (size_t to = 0; to < feed.walks.size(); to++) {
            const int minutes = feed.walks[from][to];
            if (feed.pull_out[to] > feed.pull_out[from] + minutes || feed.pull_in[from] > minutes + feed.pull_in[to]) return true;
        }
    return false;
}

// The empty runs that are needed: from each place to each other one, the last that reaches a departure as the first one. With two
// lines a place they lead from the one to the other too, in no time.
std::vector<Run> runs_of(const Matrix &walks, const Matrix &arrivals, const Matrix &departures, bool has_two) {
    std::vector<Run> runs;
    for (int from = 0; from < int(walks.size()); from++)
        for (int to = 0; to < int(walks.size()); to++) {
            const int minutes = walks[from][to];
            if ((from == to && !has_two) || minutes >= NONE) continue;
            auto reaches = departures[to].begin();
            for (size_t k = 0; k < arrivals[from].size(); k++) {
                const int leaves = arrivals[from][k];
                while (reaches != departures[to].end() && *reaches < leaves + minutes) reaches++;
                if (reaches == departures[to].end()) break;
                const bool last = k + 1 == arrivals[from].size() || arrivals[from][k + 1] + minutes > *reaches;
                if (last) runs.push_back({from, leaves, to, *reaches, minutes});
            }
        }
    return runs;
}

int main(int count, char **words) {
    if (count != 2) return std::cerr << "usage: network FEED\n", 2;
    Feed feed(words[1]);
    const std::vector<Trip> &trips = feed.trips;
    const int places = feed.walks.size();

    const double begun = seconds();
    feed.close();

    const double walked = seconds();
    const bool has_two = has_detours(feed);
    // The line of a place at which trips depart has its number, and that at which they end this one.
    auto ends_at = [&](int at) { return has_two ? places + at : at; };
    const int lines = has_two ? 2 * places : places;
    Matrix arrivals(places), departures(places), events(lines);
    for (const Trip &trip : trips) arrivals[trip.to].push_back(trip.ends), departures[trip.from].push_back(trip.departs);
    for (auto &minutes : arrivals) keep_each_once(minutes);
    for (auto &minutes : departures) keep_each_once(minutes);
    const std::vector<Run> runs = runs_of(feed.walks, arrivals, departures, has_two);
    for (int at = 0; at < places; at++) events[at] = departures[at];
    for (const Run &run : runs) events[ends_at(run.from)].push_back(run.leaves);
    // The last node of a line is that from which vehicles go to the hub, which has the last number.
    std::vector<int> first(lines + 1);
    for (int at = 0; at < lines; at++) keep_each_once(events[at]), first[at + 1] = first[at] + int(events[at].size()) + 1;
    const int hub = first[lines];
    auto node = [&](int at, int from) {
        return first[at] + int(std::lower_bound(events[at].begin(), events[at].end(), from) - events[at].begin());
    };
    std::vector<Arc> arcs;
    for (int at = 0; at < lines; at++)
        for (int k = first[at]; k + 1 < first[at + 1]; k++) arcs.push_back({k, k + 1, 0});
    for (int at = 0; at < places; at++) {
        arcs.push_back({first[ends_at(at) + 1] - 1, hub, feed.pull_in[at]});
        arcs.push_back({hub, first[at], VEHICLE + feed.pull_out[at]});
    }
    for (const Run &run : runs) arcs.push_back({node(ends_at(run.from), run.leaves), node(run.to, run.reaches), run.minutes});
    std::stable_sort(arcs.begin(), arcs.end(), [](const Arc &one, const Arc &other) { return one.from < other.from; });
    std::vector<std::pair<int, int>> ends;
    for (const Arc &arc : arcs) ends.push_back({arc.from, arc.to});
    Graph graph;
    graph.build(hub + 1, ends.begin(), ends.end());
    Graph::ArcMap<long long> cost(graph);
    Graph::NodeMap<long long> supply(graph, 0);
    for (size_t k = 0; k < arcs.size(); k++) cost[graph.arc(k)] = arcs[k].cost;
    for (const Trip &trip : trips) {
        supply[graph.node(node(ends_at(trip.to), trip.ends))]++;
        supply[graph.node(node(trip.from, trip.departs))]--;
    }

    const double built = seconds();
    Simplex simplex(graph);
    if (simplex.costMap(cost).supplyMap(supply).run() != Simplex::OPTIMAL) return std::cerr << "no plan is least\n", 1;
    const long long total = simplex.totalCost();
    const double solved = seconds();
    std::printf("walks %.6f\nbuilding %.6f\nsimplex %.6f\n", walked - begun, built - walked, solved - built);
    std::printf("vehicles %lld, minutes %lld\n", total / VEHICLE, total % VEHICLE);
}
