// A plan by searches over a network of places and minutes, one for each trip that ends.
//
// The worth of a node is what one more vehicle there saves. At first it is a whole vehicle everywhere, and no trip has ended. Then
// the trips end one after the other, the last first. The vehicle of each goes to a departure that has none, or stays, along a
// shortest path; others give way to it. Worth falls along the way, and never rises. It knows no depot.
//
// A trip's price of leaving is the worth where it ends. Its price of entering is a vehicle less the worth where it departs.
//
// Example: g++ -O2 -o /tmp/network_search tools/trials/search/network_search.cpp && /tmp/network_search /tmp/peaks
#include <deque>
#include <queue>

#include "network.hpp"

struct Carried { int arc, from, flow; };

struct Search {
    const Network &net;
    std::vector<uint32_t> worth, dist;
    // Of a node that was reached the one before, and how: by a run, or -1 waiting, -2 in the place of one that waited there, and
    // -3 - x in the place of one that came by run x.
    std::vector<int> came, parent;
    std::vector<int> demand, waiting, touched;
    std::vector<std::vector<Carried>> into;
    std::vector<uint64_t> heap;
    long long settled = 0, looks = 0, pushed = 0;
    static constexpr uint32_t FAR = UINT32_MAX;

    explicit Search(const Network &net)
        : net(net), worth(net.nodes, VEHICLE), dist(net.nodes, FAR), came(net.nodes), parent(net.nodes),
          demand(net.nodes), waiting(net.nodes), into(net.nodes) {
        for (int v : net.departs) demand[v]++;
    }

    uint32_t best;
    int end;
    bool stays;

    void label(int v, uint32_t d, int from, int how) {
        if (d >= best || d >= dist[v]) return;
        if (dist[v] == FAR) touched.push_back(v);
        dist[v] = d, came[v] = from, parent[v] = how;
        if (demand[v]) return void((best = d, end = v, stays = false));
        heap.push_back(uint64_t(d) << 32 | uint32_t(v)), std::push_heap(heap.begin(), heap.end(), std::greater<>());
        pushed++;
    }

    void add(int s) {
        best = worth[s] + 1, end = s, stays = true;
        label(s, 0, -1, -1);
        while (!heap.empty()) {
            const uint64_t top = heap.front();
            const uint32_t d = top >> 32;
            const int u = uint32_t(top);
            if (d >= best) break;
            std::pop_heap(heap.begin(), heap.end(), std::greater<>()), heap.pop_back();
            if (d > dist[u]) continue;
            settled++;
            if (d + worth[u] < best) best = d + worth[u], end = u, stays = true;
            if (d >= best) break;
            if (u > net.first[net.place_of[u]] && waiting[u - 1]) label(u - 1, d, u, -2);
            for (const Carried &it : into[u]) label(it.from, d, u, -3 - it.arc);
            if (u + 1 < net.first[net.place_of[u] + 1]) label(u + 1, d + worth[u] - worth[u + 1], u, -1);
            for (int k = net.begins[u]; k < net.begins[u + 1]; k++) {
                const Run &run = net.runs[k];
                looks++;
                const uint32_t along = d + worth[u] + run.minutes;
                if (along >= best + uint32_t(VEHICLE)) break;
                label(run.to, along - worth[run.to], u, k);
            }
        }
        heap.clear();
        for (int v : touched) {
            if (dist[v] < best) worth[v] -= best - dist[v];
        }
        for (int v = end; v != s; v = came[v]) {
            const int how = parent[v], from = came[v];
            if (how == -1) waiting[from]++;
            else if (how == -2) waiting[v]--;
            else if (how >= 0) carry(how, from, v, 1);
            else carry(-3 - how, v, from, -1);
        }
        if (!stays) demand[end]--;
        for (int v : touched) dist[v] = FAR;
        touched.clear();
    }
    void carry(int arc, int from, int to, int more) {
        auto &list = into[to];
        auto it = std::find_if(list.begin(), list.end(), [&](const Carried &c) { return c.arc == arc; });
        if (it == list.end()) list.push_back({arc, from, more});
        else if (!(it->flow += more)) list.erase(it);
    }

    void link() {
        std::vector<int> order(net.feed.trips.size());
        std::iota(order.begin(), order.end(), 0);
        std::stable_sort(order.begin(), order.end(), [&](int a, int b) { return net.feed.trips[a].ends > net.feed.trips[b].ends; });
        for (int i : order) add(net.stands[i]);
    }

    // The links along what was carried, first in, first out, and the prices by the worths.
    Plan plan() {
        const auto &trips = net.feed.trips;
        Plan plan{std::vector<int>(trips.size(), -1), {}, {}};
        std::vector<std::deque<int>> there(net.nodes);
        std::vector<std::vector<int>> departs(net.nodes);
        std::vector<std::vector<Carried>> out(net.nodes);
        for (int v = 0; v < net.nodes; v++)
            for (const Carried &it : into[v]) out[it.from].push_back({it.arc, v, it.flow});
        for (size_t i = 0; i < trips.size(); i++) {
            const int u = net.stands[i], v = net.departs[i];
            there[u].push_back(i), departs[v].push_back(i);
            plan.leave.push_back(worth[u]), plan.enter.push_back(VEHICLE - worth[v]);
        }
        std::vector<int> order(net.nodes);
        std::iota(order.begin(), order.end(), 0);
        std::stable_sort(order.begin(), order.end(), [&](int a, int b) { return net.minute_of[a] < net.minute_of[b]; });
        for (int u : order) {
            auto &units = there[u];
            auto take = [&] { const int unit = units.front(); units.pop_front(); return unit; };
            for (size_t k = 0; k + demand[u] < departs[u].size(); k++) plan.next[take()] = departs[u][k];
            for (const Carried &it : out[u]) for (int k = 0; k < it.flow; k++) there[it.from].push_back(take());
            for (int k = 0; k < waiting[u]; k++) there[u + 1].push_back(take());
        }
        return plan;
    }
};

int main(int count, char **words) {
    if (count != 2) return std::cerr << "usage: network_search FEED\n", 2;
    Feed feed(words[1]);
    const double begun = seconds();
    feed.close();
    const double walked = seconds();
    const Network net(feed);
    const double built = seconds();
    Search search(net);
    search.link();
    const double solved = seconds();
    const Plan plan = search.plan();
    const double ended = seconds();
    std::printf("walks %.4f, building %.4f, searches %.4f, links %.4f; ", walked - begun, built - walked, solved - built, ended - solved);
    std::printf("%d nodes, %zu runs, %lld settled, %lld looks, %lld keys; ", net.nodes, net.runs.size(), search.settled, search.looks,
                search.pushed);
    put(feed, plan);
}
