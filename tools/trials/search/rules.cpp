// The search of today.cpp where a planner says of single pairs of trips that a vehicle makes one straight after the other, or never,
// and how long a vehicle may wait at a terminal before its next trip.
//
// With a longest wait a pair fits with its walk where the gap has room for the walk, and leaves at most that wait. Else it fits by
// way of home where the gap has room for the pull-in and the pull-out; such a pair saves exactly one vehicle. Each terminal is to
// have its row in depot.csv, or there is no such file, and then no way leads home in between.
//
// The words behind the feed:
//   wait MINUTES  the longest wait at each terminal
//   some          each third terminal has none
//   pairs COUNT   so many pairs, drawn by a fixed seed from those that fit: in turn one that is kept, and one that never comes
//   all           each row looks at each column by itself
//
// It puts the processor seconds of all searches, what was counted, and the plan. With and without `all` it has to find one plan.
//
// Example: g++ -O2 -o /tmp/rules tools/trials/search/rules.cpp && /tmp/rules /tmp/depot wait 60 pairs 200
#include <climits>
#include <cstdint>
#include <random>
#include <set>

#include "plan.hpp"

const int UNCUT = 128;
const int FEW = 16;
const int UNBOUND = 1 << 20;   // The wait at a terminal without a longest one.

// A feed with rules: which pairs fit, in how many empty minutes, and what they save.
struct Ruled {
    const Feed &feed;
    std::vector<int> waits;                 // Of each place.
    std::vector<int> kept_after, kept_before;
    std::vector<uint8_t> named;             // A rule has the trip as its first.
    std::set<std::pair<int, int>> never;
    bool housed;

    Ruled(const Feed &feed, int wait, bool some, bool housed)
        : feed(feed), waits(feed.walks.size(), wait), kept_after(feed.trips.size(), -1), kept_before(feed.trips.size(), -1),
          named(feed.trips.size()), housed(housed) {
        for (size_t at = 0; at < waits.size() && some; at += 3) waits[at] = UNBOUND;
    }

    int home(const Trip &before, int post) const { return feed.pull_in[before.to] + feed.pull_out[post]; }

    bool allowed(int i, int j) const {
        return !named[i] ? kept_before[j] < 0
                         : (kept_after[i] < 0 || kept_after[i] == j) && (kept_before[j] < 0 || kept_before[j] == i) && !never.count({i, j});
    }

    // The empty minutes of a pair, rules of single pairs apart, or NONE.
    int minutes(int i, int j) const {
        const Trip &before = feed.trips[i], &after = feed.trips[j];
        const int gap = after.departs - before.ends, walk = feed.walks[before.to][after.from], wait = waits[after.from];
        if (walk < NONE && gap >= walk && gap - walk <= wait) return walk;
        return housed && wait < UNBOUND && gap >= home(before, after.from) ? home(before, after.from) : NONE;
    }

    // Draws rules of pairs that fit within an hour and a half.
    void draw(int count) {
        std::mt19937 draw(1);
        const int slots = feed.trips.size();
        for (int drawn = 0, tries = 0; drawn < count && tries < 100 * count; tries++) {
            const int i = draw() % slots;
            std::vector<int> next;
            for (int j = 0; j < slots; j++)
                if (minutes(i, j) < NONE && feed.trips[j].departs - feed.trips[i].ends < 90) next.push_back(j);
            if (next.empty()) continue;
            const int j = next[draw() % next.size()];
            if (kept_after[i] == j || never.count({i, j})) continue;
            if (drawn % 2) never.insert({i, j});
            else if (kept_after[i] >= 0 || kept_before[j] >= 0) continue;
            else kept_after[i] = j, kept_before[j] = i;
            named[i] = 1, drawn++;
        }
    }
};

struct Column { int post, minute, slot; };
struct Group { int post, from, to, earliest, latest; };

struct Search {
    static constexpr long long GREATEST = VEHICLE + 2880, FAR = GREATEST + 1, UNREACHED = 1LL << 60;
    // The columns from one place up to another that were reached at no more than a cost, and the minutes within which all are such.
    struct Run { long long cost = UNREACHED; int from = 0, to = 0, since = INT_MAX, until = INT_MIN; };
    struct Seen { long long near = FAR; Run walk, home; };
    struct Lead { int ready = INT_MAX; long long start = 0; };

    const Ruled &ruled;
    const Feed &feed;
    const bool all, waiting;
    int slots, grouped = 0;
    std::vector<Column> columns;         // Those that are kept with a row stand behind all others, in no group.
    std::vector<Group> groups;
    std::vector<int> place_of, order, group_of;
    std::vector<int> next, before, parent, rows;
    std::vector<long long> leave, enter, dist, far;
    std::vector<uint8_t> done, nearer;   // From a place each walk takes no longer than the way home.
    std::vector<Seen> seen;
    std::vector<Lead> leads;
    Lead home;
    long long looked = 0, visited = 0, reached = 0, led = 0;

    Search(const Ruled &ruled, bool all)
        : ruled(ruled), feed(ruled.feed), all(all), waiting(*std::min_element(ruled.waits.begin(), ruled.waits.end()) < UNBOUND),
          slots(feed.trips.size()) {
        for (int slot = 0; slot < slots; slot++) columns.push_back({feed.trips[slot].from, feed.trips[slot].departs, slot});
        order.resize(slots);
        for (int slot = 0; slot < slots; slot++) order[slot] = slot;
        auto kept = [&](const Column &column) { return ruled.kept_before[column.slot] >= 0; };
        std::stable_sort(columns.begin(), columns.end(), [&](const Column &one, const Column &other) {
            return std::make_tuple(kept(one), one.post, one.minute) < std::make_tuple(kept(other), other.post, other.minute);
        });
        std::stable_sort(order.begin(), order.end(),
                         [&](int one, int other) { return feed.trips[one].departs < feed.trips[other].departs; });
        while (grouped < slots && !kept(columns[grouped])) grouped++;
        group_of.assign(slots, -1);
        for (int from = 0, to; from < grouped; from = to) {
            for (to = from + 1; to < grouped && to - from < UNCUT && columns[to].post == columns[from].post;) to++;
            std::fill(group_of.begin() + from, group_of.begin() + to, groups.size());
            groups.push_back({columns[from].post, from, to, columns[from].minute, columns[to - 1].minute});
        }
        next.assign(slots, -1), before.assign(slots, -1), parent.assign(slots, 0), rows.assign(slots + 1, 0);
        leave.assign(slots, 0), enter.assign(slots, 0), far.assign(slots + 1, 0);
        place_of.resize(slots);
        for (int place = 0; place < slots; place++) place_of[columns[place].slot] = place;
        for (size_t at = 0; at < feed.walks.size(); at++) {
            bool shorter = true;
            for (size_t post = 0; post < feed.walks.size(); post++)
                shorter &= ruled.waits[post] == UNBOUND || feed.walks[at][post] >= NONE ||
                           feed.walks[at][post] <= feed.pull_in[at] + feed.pull_out[post];
            nearer.push_back(shorter);
        }
    }

    // The first place of a column, from one place up to another, that departs at a minute or later.
    int first_from(int from, int upto, int minute) const {
        if (upto <= from || columns[upto - 1].minute < minute) return upto;
        if (upto - from <= FEW) {
            while (columns[from].minute < minute) from++;
            return from;
        }
        auto before = [&](const Column &column) { return column.minute < minute; };
        return std::partition_point(columns.begin() + from, columns.begin() + upto, before) - columns.begin();
    }

    // Reaches a column at a distance.
    void reach(int column, long long along, int place, long long &closest) {
        if (along < dist[column] && !done[column]) dist[column] = along, parent[column] = place, closest = std::min(closest, along);
    }

    // Looks at each column by itself.
    void look_at_each(int row, int place, long long start) {
        const Trip &trip = feed.trips[row];
        long long closest = FAR;
        for (int column = 0; column < slots; column++) {
            visited++;
            const int slot = columns[column].slot, minutes = ruled.minutes(row, slot);
            if (minutes >= NONE || !ruled.allowed(row, slot)) continue;
            const int group = group_of[column];
            const long long along = start + enter[column] - feed.weight(trip, feed.trips[slot], minutes);
            reach(column, along, place, group < 0 ? closest : seen[group].near);
        }
    }

    // Looks at the columns of a group that depart in some minutes, from a row to which each costs so much besides its price.
    void look_in(const Group &group, Seen &was, Run &run, int since, int until, long long cost, int place) {
        looked++;
        if (since > until || since > group.latest || until < group.earliest) return;
        if (cost >= run.cost && since >= run.since && until <= run.until) return;
        int first = first_from(group.from, group.to, since);
        int upto = until >= group.latest ? group.to : first_from(first, group.to, until + 1);
        const int whole_from = first, whole_to = upto;
        if (cost >= run.cost) {
            if (first >= run.from && first < run.to) first = std::min(upto, run.to);
            if (upto > run.from && upto <= run.to) upto = std::max(first, run.from);
        }
        bool undone = false;
        for (int column = first; column < upto; column++) {
            visited++;
            undone |= !done[column];
            reach(column, cost + enter[column], place, was.near);
        }
        const bool joins = whole_from <= run.to && run.from <= whole_to && run.cost < UNREACHED;
        if (cost < run.cost || !joins) {
            run.cost = cost, run.from = whole_from, run.to = whole_to;
        } else {
            run.cost = undone ? cost : run.cost;
            run.from = std::min(run.from, whole_from), run.to = std::max(run.to, whole_to);
        }
        run.since = run.from <= group.from ? INT_MIN : columns[run.from - 1].minute + 1;
        run.until = run.to >= group.to ? INT_MAX : columns[run.to].minute - 1;
    }

    void look_from(int row, int place, long long start) {
        if (all || ruled.named[row]) return look_at_each(row, place, start);
        const Trip &trip = feed.trips[row];
        Lead &lead = leads[trip.to];
        const bool behind = start >= lead.start && trip.ends >= lead.ready;
        const int ready = trip.ends + feed.pull_in[trip.to];
        const bool homeward = ruled.housed && waiting && !(start >= home.start && ready >= home.ready);
        if (behind && (!waiting || trip.ends == lead.ready) && !homeward) return void(led++);
        const std::vector<int> &walks = feed.walks[trip.to];
        for (size_t at = 0; at < groups.size(); at++) {
            const Group &group = groups[at];
            Seen &was = seen[at];
            const int walk = walks[group.post], wait = ruled.waits[group.post], out = feed.pull_out[group.post];
            const int since = trip.ends + walk, until = wait < UNBOUND ? since + wait : INT_MAX;
            if (walk < NONE && !(behind && wait == UNBOUND))
                look_in(group, was, was.walk, behind ? std::max(since, lead.ready + walk + wait + 1) : since, until,
                        start - VEHICLE - feed.pull_in[trip.to] - out + walk, place);
            if (!homeward || wait == UNBOUND) continue;
            if (nearer[trip.to]) {
                look_in(group, was, was.home, ready + out, INT_MAX, start - VEHICLE, place);
            } else {
                Run apart;
                if (walk < NONE) look_in(group, was, apart, ready + out, since - 1, start - VEHICLE, place), apart = {};
                look_in(group, was, apart, walk < NONE ? std::max(ready + out, until + 1) : ready + out, INT_MAX, start - VEHICLE, place);
            }
        }
        lead = {trip.ends, start};
        if (homeward && nearer[trip.to]) home = {ready, start};
    }

    int nearest(long long bound) {
        int best = -1;
        long long least = bound;
        for (size_t at = 0; at < groups.size(); at++) {
            if (least <= seen[at].near) continue;
            long long found = FAR;
            int first = -1;
            for (int column = groups[at].from; column < groups[at].to; column++)
                if (dist[column] < found && !done[column]) first = column, found = dist[column];
            seen[at].near = found;
            if (found < least) best = first, least = found;
        }
        for (int column = grouped; column < slots; column++)
            if (dist[column] < least && !done[column]) best = column, least = dist[column];
        return best;
    }

    void add(int a) {
        std::fill(before.begin(), before.end(), -1);
        for (int row = 0; row < slots; row++)
            if (next[row] >= 0) before[next[row]] = row;
        leave[a] = GREATEST;
        dist.assign(slots, FAR), done.assign(slots, 0), seen.assign(groups.size(), Seen{}), leads.assign(feed.walks.size(), Lead{});
        home = {};
        rows[0] = a, far[0] = 0;
        look_from(a, 0, GREATEST);
        int size = 1, from = 0, to = -1, column;
        long long fall = GREATEST;
        while ((column = nearest(fall)) >= 0) {
            const long long distance = dist[column];
            const int row = before[column];
            if (row < 0) { from = parent[column], to = column, fall = distance; break; }
            done[column] = 1, rows[size] = row, far[size] = distance;
            reached++;
            look_from(row, size, distance + leave[row]);
            if (distance + leave[row] < fall) fall = distance + leave[row], from = size;
            size++;
        }
        for (int j = 0; j < slots; j++) enter[j] += fall > dist[j] ? fall - dist[j] : 0;
        for (int row = 0; row < slots; row++)
            if (next[row] >= 0) leave[row] -= fall > dist[next[row]] ? fall - dist[next[row]] : 0;
        leave[a] -= fall;
        for (int at = from;;) {
            const int row = rows[at], had = next[row];
            next[row] = to;
            if (had < 0) break;
            at = parent[had], to = had;
        }
    }

    // Not inlined, so that callgrind can count it alone.
    [[gnu::noinline]] Plan plan() {
        for (int added = slots; added-- > 0;) add(order[added]);
        Plan found{std::vector<int>(slots, -1), leave, std::vector<long long>(slots)};
        for (int row = 0; row < slots; row++) {
            found.next[row] = next[row] < 0 ? -1 : columns[next[row]].slot;
            found.enter[row] = enter[place_of[row]];
        }
        return found;
    }
};

// Whether the prices prove that the plan is least of those that the rules allow.
bool proved(const Ruled &ruled, const Plan &plan) {
    const Feed &feed = ruled.feed;
    const int slots = feed.trips.size();
    long long prices = 0, worth = 0;
    std::vector<int> before(slots, -1);
    for (int i = 0; i < slots; i++) {
        prices += plan.leave[i] + plan.enter[i];
        if (plan.leave[i] < 0 || plan.enter[i] < 0) return false;
        for (int j = 0; j < slots; j++) {
            const int minutes = ruled.minutes(i, j);
            const bool fits = minutes < NONE && (ruled.kept_after[i] < 0 || ruled.kept_after[i] == j) &&
                              (ruled.kept_before[j] < 0 || ruled.kept_before[j] == i) && !ruled.never.count({i, j});
            const long long weight = fits ? feed.weight(feed.trips[i], feed.trips[j], minutes) : 0;
            if (weight > plan.leave[i] + plan.enter[j]) return false;
            if (plan.next[i] != j) continue;
            if (!fits || before[j] >= 0) return false;
            before[j] = i, worth += weight;
        }
    }
    return prices == worth;
}

int main(int count, char **words) {
    if (count < 2) return std::cerr << "usage: rules FEED [wait MINUTES] [some] [pairs COUNT] [all]\n", 2;
    auto told = [&](const char *word) {
        return std::find_if(words + 2, words + count, [&](char *other) { return !strcmp(word, other); }) - words;
    };
    auto number = [&](const char *word, int otherwise) { return told(word) + 1 < count ? std::atoi(words[told(word) + 1]) : otherwise; };
    Feed feed(words[1]);
    feed.close();
    Ruled ruled(feed, number("wait", UNBOUND), told("some") < count, bool(std::ifstream(words[1] + std::string("/depot.csv"))));
    ruled.draw(number("pairs", 0));
    const double begun = seconds();
    Search search(ruled, told("all") < count);
    const Plan plan = search.plan();
    std::printf("%.4f s, %lld looks at groups, %lld visits, %lld rows, %lld led; ", seconds() - begun, search.looked, search.visited,
                search.reached, search.led);
    long long vehicles = 0, minutes = 0, visits = 0;
    std::vector<long long> links, prices;
    for (size_t i = 0; i < plan.next.size(); i++) {
        const int j = plan.next[i];
        links.push_back(j), prices.push_back(plan.leave[i]), prices.push_back(plan.enter[i]);
        if (j < 0) { vehicles++; continue; }
        const Trip &trip = feed.trips[i], &after = feed.trips[j];
        minutes += ruled.minutes(i, j);
        visits += ruled.waits[after.from] < after.departs - trip.ends - feed.walks[trip.to][after.from];
    }
    std::printf("vehicles %lld, minutes %lld, %lld home between, %s, links %08llx, prices %08llx\n", vehicles, minutes, visits,
                proved(ruled, plan) ? "proved" : "NOT PROVED", print_of(links) >> 32, print_of(prices) >> 32);
}
