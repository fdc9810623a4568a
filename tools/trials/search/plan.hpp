// A plan, what every trial here puts of it, and the proof of it by its prices.
#pragma once

#include <cstdio>
#include <cstring>

#include "../../peers/feed.hpp"

// For each trip the next one of its vehicle, or none, and its two prices.
struct Plan {
    std::vector<int> next;
    std::vector<long long> leave, enter;
};

// The links of trips that meet at one place, first in, first out, as `fixed` makes them.
inline std::vector<int> meeting_links(const Feed &feed) {
    const int slots = feed.trips.size();
    std::vector<int> ends(slots), departs(slots), next(slots, -1);
    for (int i = 0; i < slots; i++) ends[i] = departs[i] = i;
    std::stable_sort(ends.begin(), ends.end(), [&](int one, int other) { return feed.trips[one].ends < feed.trips[other].ends; });
    std::stable_sort(departs.begin(), departs.end(),
                     [&](int one, int other) { return feed.trips[one].departs < feed.trips[other].departs; });
    std::vector<std::vector<int>> there(feed.walks.size());
    std::vector<size_t> taken(feed.walks.size());
    for (int i : ends) there[feed.trips[i].to].push_back(i);
    for (int j : departs) {
        const int at = feed.trips[j].from;
        if (taken[at] == there[at].size()) continue;
        const int i = there[at][taken[at]];
        if (feed.trips[i].ends <= feed.trips[j].departs) next[i] = j, taken[at]++;
    }
    return next;
}

// Whether the prices prove that the plan is least. One look for each pair, as the judge of certificates takes it.
inline bool proved(const Feed &feed, const Plan &plan) {
    const int slots = feed.trips.size();
    long long prices = 0, worth = 0;
    std::vector<int> before(slots, -1);
    for (int i = 0; i < slots; i++) {
        prices += plan.leave[i] + plan.enter[i];
        if (plan.leave[i] < 0 || plan.enter[i] < 0) return false;
        const int j = plan.next[i];
        if (j < 0) continue;
        const int minutes = feed.walks[feed.trips[i].to][feed.trips[j].from];
        if (before[j] >= 0 || feed.trips[i].ends + minutes > feed.trips[j].departs) return false;
        before[j] = i;
        worth += feed.weight(feed.trips[i], feed.trips[j], minutes);
    }
    for (int i = 0; i < slots; i++)
        for (int j = 0; j < slots; j++) {
            const int minutes = feed.walks[feed.trips[i].to][feed.trips[j].from];
            if (feed.trips[i].ends + minutes > feed.trips[j].departs) continue;
            if (feed.weight(feed.trips[i], feed.trips[j], minutes) > plan.leave[i] + plan.enter[j]) return false;
        }
    return prices == worth;
}

// A number that two plans share only if their links are the same, and one for their prices.
inline unsigned long long print_of(const std::vector<long long> &numbers) {
    unsigned long long print = 1469598103934665603ULL;
    for (long long number : numbers) print = (print ^ (unsigned long long)number) * 1099511628211ULL, print ^= print >> 29;
    return print;
}

// Puts the vehicles and minutes, whether the prices prove them, and the prints of links and prices.
inline void put(const Feed &feed, const Plan &plan) {
    long long vehicles = 0, minutes = 0;
    std::vector<long long> links, prices;
    for (size_t i = 0; i < plan.next.size(); i++) {
        const int j = plan.next[i];
        if (j < 0) vehicles++;
        else minutes += feed.walks[feed.trips[i].to][feed.trips[j].from];
        links.push_back(j), prices.push_back(plan.leave[i]), prices.push_back(plan.enter[i]);
    }
    std::printf("vehicles %lld, minutes %lld, %s, links %08llx, prices %08llx\n", vehicles, minutes,
                proved(feed, plan) ? "proved" : "NOT PROVED", print_of(links) >> 32, print_of(prices) >> 32);
}

// The plan that blockdesk wrote into the folder of a feed.
inline Plan plan_written(const Feed &feed, const std::string &folder) {
    std::map<std::string, int> slots;
    for (size_t slot = 0; slot < feed.names.size(); slot++) slots[feed.names[slot]] = slot;
    Plan plan{std::vector<int>(slots.size(), -1), std::vector<long long>(slots.size()), std::vector<long long>(slots.size())};
    const Records blocks = records(folder + "/blocks.csv");
    for (size_t row = 1; row < blocks.size(); row++)
        if (blocks[row][0] == blocks[row - 1][0]) plan.next[slots.at(blocks[row - 1][1])] = slots.at(blocks[row][1]);
    for (const auto &row : records(folder + "/prices.csv")) {
        plan.leave[slots.at(row[0])] = std::stoll(row[1]);
        plan.enter[slots.at(row[0])] = std::stoll(row[2]);
    }
    return plan;
}
