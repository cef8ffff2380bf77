// Measures one random plan of 256 relays and 1,024 links by the library, by the same algorithm in C++, and by
// Dijkstra's with a heap, and prints how long each took. All three have to agree, and the library may take at most twice
// as long as the same algorithm in C++.
#include <algorithm>
#include <chrono>
#include <cstdint>
#include <cstdio>
#include <functional>
#include <queue>
#include <random>
#include <set>
#include <utility>
#include <vector>

extern "C" uint8_t relay_measure(uint16_t relays, const uint16_t *from, size_t froms, const uint16_t *to, size_t tos,
                                 const uint32_t *delays, size_t count, uint32_t *distances, size_t cells,
                                 uint16_t *nexts, size_t places);

struct Plan {
    int relays;
    std::vector<uint16_t> from, to;
    std::vector<uint32_t> delay;
};

struct Squares {
    std::vector<uint32_t> distance;
    std::vector<uint16_t> next;
};

static Plan random_plan(int relays, int links) {
    std::mt19937 rng(7);
    Plan plan{relays, {}, {}, {}};
    std::set<std::pair<int, int>> pairs;
    auto add = [&](int a, int b) {
        if (a == b || !pairs.insert({std::min(a, b), std::max(a, b)}).second) return;
        plan.from.push_back(a);
        plan.to.push_back(b);
        plan.delay.push_back(1 + rng() % 1000);
    };
    for (int i = 1; i < relays; i++) add(i, rng() % i);
    while ((int)plan.from.size() < links) add(rng() % relays, rng() % relays);
    return plan;
}

// For each source: settle the nearest relay and follow its links, over and over.
static void same_algorithm(const Plan &plan, Squares &out) {
    const int n = plan.relays;
    const int m = (int)plan.from.size();
    // the links of each relay: the first, and after each link the next at either end
    std::vector<uint16_t> first(n, m), next_from(m), next_to(m);
    for (int j = m - 1; j >= 0; j--) {
        int u = plan.from[j], v = plan.to[j];
        next_from[j] = first[u];
        next_to[j] = first[v];
        first[u] = first[v] = j;
    }
    auto after = [&](int at, int j) { return plan.from[j] == at ? next_from[j] : next_to[j]; };
    for (int source = 0; source < n; source++) {
        uint32_t *row = &out.distance[(size_t)source * n];
        bool known[256] = {}, settled[256] = {};
        known[source] = true;
        row[source] = 0;
        for (;;) {
            int best = -1;
            for (int x = 0; x < n; x++)
                if (!settled[x] && known[x] && (best < 0 || row[x] < row[best])) best = x;
            if (best < 0) break;
            settled[best] = true;
            auto follow = [&](int j) {
                int x = plan.from[j] == best ? plan.to[j] : plan.to[j] == best ? plan.from[j] : -1;
                if (x < 0) return;
                uint32_t cost = row[best] + plan.delay[j];
                if (!known[x] || cost < row[x]) known[x] = true, row[x] = cost;
            };
            for (int j = first[best]; j < m; j = after(best, j)) follow(j);
        }
    }
    for (int u = 0; u < n; u++)
        for (int x = 0; x < n; x++) {
            int lowest = u == x ? u : n;
            auto try_link = [&](int j) {
                int r = plan.from[j] == u ? plan.to[j] : plan.to[j] == u ? plan.from[j] : -1;
                if (r < 0) return;
                if (plan.delay[j] + out.distance[(size_t)r * n + x] == out.distance[(size_t)u * n + x])
                    lowest = std::min(lowest, r);
            };
            if (u != x)
                for (int j = first[u]; j < m; j = after(u, j)) try_link(j);
            out.next[(size_t)u * n + x] = lowest;
        }
}

// Dijkstra's algorithm with a heap, and the same search for next relays over neighbour lists.
static void with_heap(const Plan &plan, Squares &out) {
    const int n = plan.relays;
    std::vector<std::vector<std::pair<int, uint32_t>>> near(n);
    for (size_t j = 0; j < plan.from.size(); j++) {
        near[plan.from[j]].push_back({plan.to[j], plan.delay[j]});
        near[plan.to[j]].push_back({plan.from[j], plan.delay[j]});
    }
    using Entry = std::pair<uint32_t, int>;
    for (int source = 0; source < n; source++) {
        uint32_t *row = &out.distance[(size_t)source * n];
        std::fill(row, row + n, UINT32_MAX);
        std::priority_queue<Entry, std::vector<Entry>, std::greater<Entry>> queue;
        row[source] = 0;
        queue.push({0, source});
        while (!queue.empty()) {
            auto [cost, u] = queue.top();
            queue.pop();
            if (cost > row[u]) continue;
            for (auto [x, delay] : near[u])
                if (cost + delay < row[x]) row[x] = cost + delay, queue.push({cost + delay, x});
        }
    }
    for (int u = 0; u < n; u++)
        for (int x = 0; x < n; x++) {
            int lowest = u == x ? u : n;
            for (auto [r, delay] : near[u])
                if (u != x && delay + out.distance[(size_t)r * n + x] == out.distance[(size_t)u * n + x])
                    lowest = std::min(lowest, r);
            out.next[(size_t)u * n + x] = lowest;
        }
}

// The least of several runs, in milliseconds.
static double least(int runs, const std::function<void()> &run) {
    double best = 1e9;
    for (int i = 0; i < runs; i++) {
        auto start = std::chrono::steady_clock::now();
        run();
        std::chrono::duration<double, std::milli> took = std::chrono::steady_clock::now() - start;
        best = std::min(best, took.count());
    }
    return best;
}

int main() {
    Plan plan = random_plan(256, 1024);
    const size_t cells = (size_t)plan.relays * plan.relays;
    Squares library{std::vector<uint32_t>(65536), std::vector<uint16_t>(65536)}, same = library, heap = library;
    uint8_t answer = 255;
    double ours = least(5, [&] {
        answer = relay_measure(plan.relays, plan.from.data(), plan.from.size(), plan.to.data(), plan.to.size(), plan.delay.data(),
                               plan.delay.size(), library.distance.data(), cells, library.next.data(), cells);
    });
    double cpp = least(5, [&] { same_algorithm(plan, same); });
    double dijkstra = least(5, [&] { with_heap(plan, heap); });
    bool agree = answer == 0 && library.distance == same.distance && library.next == same.next &&
                 same.distance == heap.distance && same.next == heap.next;
    std::printf("256 relays, 1024 links, least of 5 runs\n");
    std::printf("library (with drafting and closing)  %8.2f ms\n", ours);
    std::printf("same algorithm in C++ -O3            %8.2f ms   library is %.2f times that\n", cpp, ours / cpp);
    std::printf("Dijkstra with a heap in C++ -O3      %8.2f ms   library is %.2f times that\n", dijkstra, ours / dijkstra);
    std::printf("%s\n", agree ? "all three agree" : "THEY DIFFER");
    return agree && ours <= 2 * cpp ? 0 : 1;
}
