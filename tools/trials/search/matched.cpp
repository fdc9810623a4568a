// The search of crates/pair_search over a network of places and minutes. Rows and columns, links and prices are those of today. A row
// looks at its columns by way of nodes, each of which is looked from once a search.
//
// A row comes in at the node where it stands. How far a node is goes on to the next node of its place, and along its empty runs, by
// the worth of the nodes, which is what one more vehicle there saves. All columns of a node are equally far beyond it.
//
// Without further words a search takes its columns in the order of today: of the nearest ones the first in their order, from the
// row that came in first. So the plan is that of the program. With `early` it ends at the first free column that it meets.
// With `begun` it begins with the links of trips that meet at one place, and searches for the others, where there is no depot.
//
// Example: g++ -O2 -o /tmp/matched tools/trials/search/matched.cpp && /tmp/matched /tmp/peaks
#include <queue>

#include "network.hpp"

// The least of as many keys as there are nodes: a tree of the lesser of two, in which one key is set at a time.
struct Least {
    static constexpr uint64_t NONE = UINT64_MAX;
    int leaves = 1;
    std::vector<uint64_t> keys;

    explicit Least(int nodes) {
        while (leaves < nodes) leaves *= 2;
        keys.assign(2 * leaves, NONE);
    }
    uint64_t top() const { return keys[1]; }
    void set(int node, uint64_t key) {
        int at = leaves + node;
        if (keys[at] == key) return;
        for (keys[at] = key; at > 1;) {
            const uint64_t lesser = std::min(keys[at], keys[at ^ 1]);
            at /= 2;
            if (keys[at] == lesser) return;
            keys[at] = lesser;
        }
    }
};

struct Search {
    static constexpr uint32_t FAR = UINT32_MAX, GREATEST = VEHICLE + 2880;
    const Network &net;
    const bool early;
    int slots;
    const std::vector<int> &stands, &departs;
    std::vector<int> next, before;
    std::vector<int> columns;                               // The trips in the order of columns.
    std::vector<int> opens, unlinked;                       // Of each node its first column, and how many are next of none.
    uint32_t most;   // No node is worth more: it is so before any trip has ended.
    std::vector<uint32_t> worth, dist, leave, enter, far;
    std::vector<uint16_t> from, parent, rows, touched;      // from: of each node the place in the tree; parent: of each column.
    Least nodes, picks;   // Of each node its key while it is not settled, and that of its first column that is not done.
    long long settled = 0, looks = 0, pushed = 0, reached = 0;

    Search(const Network &net, bool early)
        : net(net), early(early), slots(net.feed.trips.size()), stands(net.stands), departs(net.departs), next(slots, -1),
          before(slots, -1), columns(slots), opens(net.nodes + 1), unlinked(net.nodes), dist(net.nodes, FAR), leave(slots),
          enter(slots), far(slots + 1), from(net.nodes),
          parent(slots), rows(slots + 1), nodes(net.nodes), picks(net.nodes) {
        most = VEHICLE + *std::max_element(net.feed.pull_out.begin(), net.feed.pull_out.end());
        worth.assign(net.nodes, most);
        for (int i = 0; i < slots; i++) {
            columns[i] = i;
            opens[departs[i] + 1]++, unlinked[departs[i]]++;
        }
        std::partial_sum(opens.begin(), opens.end(), opens.begin());
        std::stable_sort(columns.begin(), columns.end(), [&](int one, int other) { return departs[one] < departs[other]; });
    }

    uint32_t fall, limit;   // What is as far as the limit does not matter: a free column is nearer, or a row stays alone before.
    int end, to;
    // How much farther the columns of a node are than the node. They all have one price.
    uint32_t beyond(int u) const { return worth[u] + enter[columns[opens[u]]] - VEHICLE - net.feed.pull_out[net.place_of[u]]; }
    // Nodes that are as far as the one that is settled, from the same row: they need no place in the heap.
    uint32_t level = FAR;
    int row_of_level = 0;
    std::vector<uint16_t> level_nodes;

    void label(int v, uint32_t d, int at) {
        if (d >= limit || d > dist[v] || (d == dist[v] && at >= from[v])) return;
        if (dist[v] == FAR) touched.push_back(v);
        dist[v] = d, from[v] = at;
        if (unlinked[v]) {
            const uint32_t free = d + beyond(v);
            if (early && free < fall) fall = limit = free, end = at, to = first_free(v);
            limit = std::min(limit, free + 1);
        }
        if (d == level && at == row_of_level) return level_nodes.push_back(v), nodes.set(v, Least::NONE);
        nodes.set(v, uint64_t(d) << 32 | uint64_t(at) << 16 | v);
        pushed++;
    }
    int first_free(int v) const {
        int k = opens[v];
        while (before[columns[k]] >= 0) k++;
        return columns[k];
    }
    void settle(uint64_t top) {
        level = top >> 32, row_of_level = top >> 16 & 0xffff;
        nodes.set(top & 0xffff, Least::NONE);
        for (level_nodes.push_back(top & 0xffff); !level_nodes.empty();) {
            const int u = level_nodes.back();
            level_nodes.pop_back();
            look_from(u, level, row_of_level);
        }
    }

    void look_from(int u, uint32_t d, int at) {
        settled++;
        if (opens[u] < opens[u + 1]) picks.set(u, uint64_t(d + beyond(u)) << 32 | opens[u]);
        // What is reached beyond a free column at a node of the greatest worth is no nearer, and it stands behind that column.
        if (unlinked[u] && worth[u] == most && beyond(u) == 0) return;
        if (u + 1 < net.first[net.place_of[u] + 1]) label(u + 1, d + worth[u] - worth[u + 1], at);
        const uint32_t start = d + worth[u];
        for (int k = net.begins[u]; k < net.begins[u + 1]; k++) {
            const Run &run = net.runs[k];
            looks++;
            if (start + run.minutes >= limit + most) break;
            label(run.to, start + run.minutes - worth[run.to], at);
        }
    }

    void come_in(int row, uint32_t d, int at) {
        rows[at] = row, far[at] = d, level = FAR;
        if (d + leave[row] < fall) fall = d + leave[row], limit = std::min(limit, fall), end = at, to = -1;
        label(stands[row], d + leave[row] - net.feed.pull_in[net.feed.trips[row].to] - worth[stands[row]], at);
    }

    void add(int a) {
        fall = limit = FAR - VEHICLE, to = -1, leave[a] = GREATEST;
        come_in(a, 0, 0);
        int size = 1;
        for (;;) {
            while (nodes.top() >> 32 < limit && nodes.top() >> 32 <= picks.top() >> 32) settle(nodes.top());
            const uint32_t d = picks.top() >> 32;
            if (d >= fall) break;
            const int k = picks.top() & 0xffff, column = columns[k], u = departs[column];
            picks.set(u, k + 1 < opens[u + 1] ? uint64_t(d) << 32 | (k + 1) : Least::NONE);
            parent[column] = from[u];
            if (before[column] < 0) { fall = d, end = parent[column], to = column; break; }
            reached++;
            come_in(before[column], d, size++);
        }
        for (int v : touched) {
            if (dist[v] < fall) worth[v] -= fall - dist[v];
            dist[v] = FAR;
            nodes.set(v, Least::NONE), picks.set(v, Least::NONE);
        }
        touched.clear();
        leave[a] -= fall;
        for (int at = 1; at < size; at++) {
            const uint32_t lost = fall > far[at] ? fall - far[at] : 0;
            leave[rows[at]] -= lost, enter[next[rows[at]]] += lost;
        }
        if (to >= 0) unlinked[departs[to]]--;
        for (int at = end;;) {
            const int row = rows[at], had = next[row];
            next[row] = to;
            if (to >= 0) before[to] = row;
            if (had < 0) break;
            if (before[had] == row) before[had] = -1;
            at = parent[had], to = had;
        }
    }

    [[gnu::noinline]] Plan plan(bool begun) {
        const std::vector<int> met = meeting_links(net.feed);
        std::vector<int> order(slots);
        std::iota(order.begin(), order.end(), 0);
        std::stable_sort(order.begin(), order.end(),
                         [&](int one, int other) { return net.feed.trips[one].departs < net.feed.trips[other].departs; });
        if (begun)
            for (int i = 0; i < slots; i++)
                if (const int j = met[i]; j >= 0) {
                    next[i] = j, before[j] = i, unlinked[departs[j]]--;
                    leave[i] = net.feed.weight(net.feed.trips[i], net.feed.trips[j], 0);
                }
        for (int added = slots; added-- > 0;)
            if (next[order[added]] < 0) add(order[added]);
        return {next, {leave.begin(), leave.end()}, {enter.begin(), enter.end()}};
    }
};

int main(int count, char **words) {
    if (count < 2) return std::cerr << "usage: matched FEED [early] [begun]\n", 2;
    auto told = [&](const char *word) {
        return std::any_of(words + 2, words + count, [&](char *it) { return !strcmp(it, word); });
    };
    Feed feed(words[1]);
    const double begun = seconds();
    feed.close();
    const double walked = seconds();
    const Network net(feed);
    const double built = seconds();
    Search search(net, told("early"));
    const Plan plan = search.plan(told("begun"));
    const double solved = seconds();
    std::printf("walks %.4f, building %.4f, searches %.4f; ", walked - begun, built - walked, solved - built);
    std::printf("%d nodes, %zu runs, %lld settled, %lld looks, %lld keys, %lld rows; ", net.nodes, net.runs.size(), search.settled,
                search.looks, search.pushed, search.reached);
    put(feed, plan);
}
