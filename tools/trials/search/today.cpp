// The search of crates/pair_search as it is, and with changes that can each be taken alone. But for the last but one, all give the
// plan and the prices that the program writes.
//
// The words behind the feed name the changes:
//   kept     links before are kept along the path that changes, and not made anew for each search
//   tree     prices are shifted along the rows of the tree alone
//   offset   distances of a search are all below those of the searches before, so nothing is cleared
//   heap     the groups that may have the nearest column are in a heap
//   narrow   prices and distances of four bytes (which leaves the offset room for 15 searches)
//   begun    it begins with the links of trips that meet at one place, and searches for the others: another plan of the same
//            prices, where there is no depot
//   written  no search: the plan that the program wrote
//
// It puts the processor seconds of all searches, what was counted, and the plan.
//
// Example: g++ -O2 -o /tmp/today tools/trials/search/today.cpp && /tmp/today /tmp/peaks kept tree offset heap
#include <cstdint>
#include <queue>

#include "plan.hpp"

const int UNCUT = 128;
const int FEW = 16;

struct Changes { bool kept, tree, offset, heap, begun; };

struct Column { int post, minute, slot; };
struct Group { int post, from, to, latest; };

template <class Price>
struct Search {
    static constexpr Price GREATEST = VEHICLE + 2880, FAR = GREATEST + 1;
    // Distances of one search are less than 4 x GREATEST apart, with costs.
    static constexpr Price SPAN = 4 * Price(VEHICLE + 2881);
    static constexpr Price UNREACHED = ~Price(0);
    struct Seen { Price near, cost; uint16_t from; uint32_t minute; };
    struct Lead { uint16_t ready; Price start; };

    const Feed &feed;
    const Changes changes;
    int slots;
    std::vector<Column> columns;
    std::vector<Group> groups;
    std::vector<int> place_of, order;
    std::vector<int16_t> next, before;   // By the places of columns.
    std::vector<Price> leave, enter, dist, far;
    std::vector<uint16_t> parent, rows;
    std::vector<uint8_t> done;
    std::vector<Seen> seen;
    std::vector<Lead> leads;
    Price base = 0;
    std::priority_queue<std::pair<Price, int>, std::vector<std::pair<Price, int>>, std::greater<>> near;
    long long looked = 0, visited = 0, reached = 0, led = 0;

    Search(const Feed &feed, Changes changes) : feed(feed), changes(changes), slots(feed.trips.size()) {
        for (int slot = 0; slot < slots; slot++) columns.push_back({feed.trips[slot].from, feed.trips[slot].departs, slot});
        order.resize(slots);
        for (int slot = 0; slot < slots; slot++) order[slot] = slot;
        std::stable_sort(columns.begin(), columns.end(), [](const Column &one, const Column &other) {
            return one.post != other.post ? one.post < other.post : one.minute < other.minute;
        });
        std::stable_sort(order.begin(), order.end(),
                         [&](int one, int other) { return feed.trips[one].departs < feed.trips[other].departs; });
        for (int from = 0, to; from < slots; from = to) {
            for (to = from + 1; to < slots && to - from < UNCUT && columns[to].post == columns[from].post;) to++;
            groups.push_back({columns[from].post, from, to, columns[to - 1].minute});
        }
        next.assign(slots, -1), before.assign(slots, -1), parent.assign(slots, 0), rows.assign(slots + 1, 0);
        leave.assign(slots, 0), enter.assign(slots, 0), far.assign(slots + 1, 0);
        place_of.resize(slots);
        for (int place = 0; place < slots; place++) place_of[columns[place].slot] = place;
        clear(0);
    }

    void clear(Price from) {
        base = from;
        dist.assign(slots, Price(base + FAR)), done.assign(slots, 0);
        seen.assign(groups.size(), Seen{Price(base + FAR), UNREACHED, 65535, UINT32_MAX});
        leads.assign(feed.walks.size(), Lead{65535, 0});
    }

    // Begins a search. With the offset, lists are cleared only once no room is left below.
    void begin() {
        if (!changes.offset) return clear(0);
        if (base < SPAN) return clear(UNREACHED - SPAN);
        base -= SPAN;
    }

    // How far a column is that was reached in this search.
    bool is_far(Price distance) const { return distance >= base + FAR; }

    int first_from(int from, int upto, int minute) const {
        if (upto <= from || columns[upto - 1].minute < minute) return upto;
        if (upto - from <= FEW) {
            while (columns[from].minute < minute) from++;
            return from;
        }
        auto before = [&](const Column &column) { return column.minute < minute; };
        return std::partition_point(columns.begin() + from, columns.begin() + upto, before) - columns.begin();
    }

    void look_from(int row, int place, Price start) {
        const Trip &trip = feed.trips[row];
        Lead &lead = leads[trip.to];
        // A lead of a search before has a start that is beyond all of this one, or it is of no row.
        if (start >= lead.start && trip.ends >= lead.ready) return void(led++);
        const std::vector<int> &walks = feed.walks[trip.to];
        for (size_t at = 0; at < groups.size(); at++) {
            const Group &group = groups[at];
            looked++;
            const int walk = walks[group.post];
            if (walk >= NONE) continue;
            const int minute = trip.ends + walk;
            if (minute > group.latest) continue;
            Seen &was = seen[at];
            const Price cost = start + GREATEST - VEHICLE - feed.pull_in[trip.to] + walk;
            if (cost >= was.cost && uint32_t(minute) >= was.minute) continue;
            const int upto = cost < was.cost ? group.to : std::min<int>(group.to, was.from);
            const int first = first_from(group.from, upto, minute);
            if (first >= upto) continue;
            const int out = feed.pull_out[group.post];
            Price closest = base + FAR;
            bool undone = false;
            for (int column = first; column < upto; column++) {
                visited++;
                undone |= !done[column];
                const Price along = cost - out + enter[column] - GREATEST;
                if (along < dist[column] && !done[column]) {
                    dist[column] = along, parent[column] = place;
                    closest = std::min(closest, along);
                }
            }
            if (changes.heap && closest < was.near && !is_far(closest)) near.push({closest, int(at)});
            was.near = std::min(was.near, closest);
            was.cost = undone ? cost : std::min(cost, was.cost);
            was.from = first;
            was.minute = first <= group.from ? 0 : columns[first - 1].minute + 1;
        }
        lead = {uint16_t(trip.ends), start};
    }

    // The nearest open column of a group, or none.
    int nearest_of(const Group &group, Price &least) const {
        int best = -1;
        least = base + FAR;
        for (int column = group.from; column < group.to; column++)
            if (dist[column] < least && !done[column]) best = column, least = dist[column];
        return best;
    }

    int nearest(Price bound) {
        int best = -1;
        Price least = bound, found;
        if (changes.heap) {
            while (!near.empty() && near.top().first < bound) {
                const auto [told, at] = near.top();
                if (told != seen[at].near) { near.pop(); continue; }
                const int column = nearest_of(groups[at], found);
                if (found == told) return column;
                near.pop();
                seen[at].near = found;
                if (!is_far(found)) near.push({found, at});
            }
            return -1;
        }
        for (size_t at = 0; at < groups.size(); at++) {
            if (least <= seen[at].near) continue;
            const int column = nearest_of(groups[at], found);
            seen[at].near = found;
            if (found < least) best = column, least = found;
        }
        return best;
    }

    void add(int a) {
        if (!changes.kept) {
            std::fill(before.begin(), before.end(), -1);
            for (int row = 0; row < slots; row++)
                if (next[row] >= 0) before[next[row]] = row;
        }
        leave[a] = GREATEST;
        begin();
        rows[0] = a, far[0] = base;
        look_from(a, 0, base + GREATEST);
        int size = 1, from = 0, to = -1, column;
        Price fall = base + GREATEST;
        while ((column = nearest(fall)) >= 0) {
            const Price distance = dist[column];
            const int row = before[column];
            if (row < 0) { from = parent[column], to = column, fall = distance; break; }
            done[column] = 1, rows[size] = row, far[size] = distance;
            reached++;
            look_from(row, size, distance + leave[row]);
            if (distance + leave[row] < fall) fall = distance + leave[row], from = size;
            size++;
        }
        if (changes.heap) near = {};
        if (changes.tree) {
            for (int at = 1; at < size; at++) {
                const Price lost = fall > far[at] ? fall - far[at] : 0;
                enter[next[rows[at]]] += lost, leave[rows[at]] -= lost;
            }
        } else {
            for (int j = 0; j < slots; j++) enter[j] += fall > dist[j] ? fall - dist[j] : 0;
            for (int row = 0; row < slots; row++)
                if (next[row] >= 0) leave[row] -= fall > dist[next[row]] ? fall - dist[next[row]] : 0;
        }
        leave[a] -= fall - base;
        if (changes.offset)
            for (int at = 1; at < size; at++) done[next[rows[at]]] = 0;
        for (int at = from;;) {
            const int row = rows[at], had = next[row];
            next[row] = to;
            if (changes.kept && to >= 0) before[to] = row;
            if (had < 0) break;
            if (changes.kept && had != to && before[had] == row) before[had] = -1;
            at = parent[had], to = had;
        }
    }

    // Not inlined, so that callgrind can count it alone.
    [[gnu::noinline]] Plan plan() {
        const std::vector<int> met = meeting_links(feed);
        for (int row = 0; row < slots && changes.begun; row++)
            if (met[row] >= 0) {
                next[row] = place_of[met[row]], before[next[row]] = row;
                leave[row] = feed.weight(feed.trips[row], feed.trips[met[row]], 0);
            }
        for (int added = slots; added-- > 0;)
            if (next[order[added]] < 0) add(order[added]);
        Plan found{std::vector<int>(slots, -1), std::vector<long long>(slots), std::vector<long long>(slots)};
        for (int row = 0; row < slots; row++) {
            found.next[row] = next[row] < 0 ? -1 : columns[next[row]].slot;
            found.leave[row] = leave[row], found.enter[row] = enter[place_of[row]];
        }
        return found;
    }
};

template <class Price>
Plan searched(const Feed &feed, Changes changes) {
    const double begun = seconds();
    Search<Price> search(feed, changes);
    const Plan plan = search.plan();
    std::printf("%.4f s, %lld looks at groups, %lld visits, %lld rows, %lld led; ", seconds() - begun, search.looked, search.visited,
                search.reached, search.led);
    return plan;
}

int main(int count, char **words) {
    if (count < 2) return std::cerr << "usage: today FEED [CHANGE..]\n", 2;
    auto told = [&](const char *change) {
        return std::any_of(words + 2, words + count, [&](char *word) { return !strcmp(word, change); });
    };
    Feed feed(words[1]);
    feed.close();
    const Changes changes{told("kept"), told("tree"), told("offset"), told("heap"), told("begun")};
    const Plan plan = told("written") ? plan_written(feed, words[1])
                      : told("narrow") ? searched<uint32_t>(feed, changes)
                                       : searched<uint64_t>(feed, changes);
    put(feed, plan);
}
