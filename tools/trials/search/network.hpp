// The network of places and minutes of a feed.
#pragma once

#include <cstdint>
#include <numeric>

#include "plan.hpp"

// An empty run to a node.
struct Run { uint16_t to, minutes; };

// A node is a place and a minute: a departure, or the last arrival from which an empty run still reaches a departure as the first
// one. Behind them each place has a node for the rest of the day. The runs of a node are in the order of their minutes.
struct Network {
    const Feed &feed;
    int places, nodes = 0;
    std::vector<int> first, place_of, minute_of;   // Of each place its first node; of each node its place and its minute.
    std::vector<int> stands, departs;              // Of each trip the node where its vehicle stands at its end, and its departure.
    std::vector<int> begins;                       // Of each node its first run.
    std::vector<Run> runs;

    explicit Network(const Feed &feed)
        : feed(feed), places(feed.walks.size()), first(places + 1), arrivals(places), departures(places) {
        for (const Trip &trip : feed.trips) arrivals[trip.to].push_back(trip.ends), departures[trip.from].push_back(trip.departs);
        for (auto *lists : {&arrivals, &departures})
            for (auto &minutes : *lists) {
                std::sort(minutes.begin(), minutes.end());
                minutes.erase(std::unique(minutes.begin(), minutes.end()), minutes.end());
            }
        near.resize(places);
        for (int from = 0; from < places; from++) {
            for (int to = 0; to < places; to++)
                if (to != from && feed.walks[from][to] < NONE && !departures[to].empty() && !arrivals[from].empty() &&
                    arrivals[from][0] + feed.walks[from][to] <= departures[to].back())
                    near[from].push_back({uint16_t(to), uint16_t(feed.walks[from][to])});
            std::stable_sort(near[from].begin(), near[from].end(),
                             [](const Run &one, const Run &other) { return one.minutes < other.minutes; });
        }
        number_nodes();
        list_runs();
    }

private:
    Matrix arrivals, departures;
    std::vector<std::vector<Run>> near;              // Of each place those that can be reached, the nearest first.
    std::vector<std::vector<int>> leaves, reaches;   // Of each place the node of each arrival and of each departure.

    // Calls back for each empty run that is needed from a place: the number of its arrival, where it goes, and the number of the
    // departure.
    template <class Back>
    void each_run(int from, Back back) const {
        const std::vector<int> &ends = arrivals[from];
        for (const Run &way : near[from]) {
            const std::vector<int> &minutes = departures[way.to];
            size_t reach = 0;
            for (size_t k = 0; k < ends.size(); k++) {
                while (reach < minutes.size() && minutes[reach] < ends[k] + way.minutes) reach++;
                if (reach == minutes.size()) break;
                if (k + 1 == ends.size() || ends[k + 1] + way.minutes > minutes[reach]) back(k, way, reach);
            }
        }
    }

    void number_nodes() {
        leaves.resize(places), reaches.resize(places);
        for (int at = 0; at < places; at++) {
            std::vector<char> left(arrivals[at].size());
            each_run(at, [&](size_t k, const Run &, size_t) { left[k] = 1; });
            size_t k = 0, j = 0;
            leaves[at].resize(arrivals[at].size()), reaches[at].resize(departures[at].size());
            auto add = [&](int minute) { place_of.push_back(at), minute_of.push_back(minute), nodes++; };
            while (k < arrivals[at].size() || j < departures[at].size()) {
                const bool arrives = k < arrivals[at].size() && (j == departures[at].size() || arrivals[at][k] <= departures[at][j]);
                if (!arrives) {
                    reaches[at][j] = nodes, add(departures[at][j]), j++;
                } else if (left[k] && (j == departures[at].size() || arrivals[at][k] < departures[at][j])) {
                    leaves[at][k] = nodes, add(arrivals[at][k]), k++;
                } else {
                    leaves[at][k] = nodes, k++;   // The vehicle is there at the next node.
                }
            }
            add(1 << 30);
            first[at + 1] = nodes;
        }
        for (const Trip &trip : feed.trips) {
            auto number = [](const std::vector<int> &minutes, int minute) {
                return std::lower_bound(minutes.begin(), minutes.end(), minute) - minutes.begin();
            };
            stands.push_back(leaves[trip.to][number(arrivals[trip.to], trip.ends)]);
            departs.push_back(reaches[trip.from][number(departures[trip.from], trip.departs)]);
        }
    }

    void list_runs() {
        begins.assign(nodes + 1, 0);
        for (int from = 0; from < places; from++)
            each_run(from, [&](size_t k, const Run &, size_t) { begins[leaves[from][k] + 1]++; });
        std::partial_sum(begins.begin(), begins.end(), begins.begin());
        runs.resize(begins[nodes]);
        std::vector<int> free(begins.begin(), begins.end() - 1);
        for (int from = 0; from < places; from++)
            each_run(from, [&](size_t k, const Run &way, size_t reach) {
                runs[free[leaves[from][k]]++] = {uint16_t(reaches[way.to][reach]), way.minutes};
            });
    }
};
