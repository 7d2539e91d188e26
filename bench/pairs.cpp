// Compares the host's entry with a search by hand and with LEMON's min-cost flow: on 20 networks of full size and 800
// orders, that all agree, and then what each costs. The choice of the pair is the entry less the load of its image.
//
//     pairs               checks and times all
//     pairs NAME [worst]  runs one of them once over all orders, for a count of its instructions
#include "pairs.hpp"
#include <algorithm>
#include <chrono>
#include <cstdio>
#include <cstring>
#include <map>

extern "C" {
#include "../include/route_book.h"
}

namespace {

constexpr uint32_t RATE = 1000;

void put(std::vector<uint8_t> &image, uint32_t figure, int bytes) {
    for (int i = bytes - 1; i >= 0; i--) {
        image.push_back(uint8_t(figure >> (8 * i)));
    }
}

// The network as a register image: at RATE in 1+1 mode a circuit has as many lanes as the arc. Each costs its number.
std::vector<uint8_t> image_of(const std::vector<Arc> &arcs, size_t places) {
    std::vector<uint8_t> image;
    for (size_t p = 0; p < places; p++) {
        image.insert(image.end(), {'P', 'L', 2});
        put(image, uint32_t(p), 2);
    }
    for (size_t c = 0; c < arcs.size(); c++) {
        image.insert(image.end(), {'C', 'T'});
        put(image, arcs[c].from, 2);
        put(image, arcs[c].to, 2);
        put(image, RATE * arcs[c].lanes + RATE / 2, 4);
        put(image, uint32_t(c), 4);
    }
    image.insert(image.end(), {'E', 'N'});
    put(image, uint32_t(places + arcs.size()), 2);
    return image;
}

std::map<const std::vector<Arc> *, std::vector<uint8_t>> images;

uint32_t figure(const uint8_t *at, int bytes) {
    uint32_t value = 0;
    for (int i = 0; i < bytes; i++) {
        value = value << 8 | at[i];
    }
    return value;
}

// One call of the entry: it loads the image, makes a book and chooses a pair. With rate 0 it stops once the book is made.
uint32_t call(const Order &order, uint32_t rate, uint8_t *output) {
    const std::vector<uint8_t> &image = images.at(order.arcs);
    return route_book_safest(image.data(), image.size(), output, ROUTE_BOOK_OUTPUT_SIZE, uint32_t(order.from),
                             uint32_t(order.to), rate, 1);
}

void proved_routes(const Order &order, Routes &routes) {
    uint8_t output[ROUTE_BOOK_OUTPUT_SIZE];
    routes.first_length = routes.second_length = 0;
    if (call(order, RATE, output) != 0) {
        return;
    }
    routes.first_length = figure(output, 2);
    routes.second_length = figure(output + 2, 2);
    routes.cost = figure(output + 4, 4);
    for (size_t i = 0; i < routes.first_length; i++) {
        routes.first[i] = uint16_t(figure(output + 8 + 2 * i, 2));
    }
    for (size_t i = 0; i < routes.second_length; i++) {
        routes.second[i] = uint16_t(figure(output + 8 + 2 * (routes.first_length + i), 2));
    }
}

bool is_route(const Order &order, const uint16_t *route, size_t length) {
    std::vector<bool> met(order.places);
    size_t p = order.from;
    met[p] = true;
    for (size_t i = 0; i < length; i++) {
        const Arc &arc = (*order.arcs)[route[i]];
        if (arc.from != p || arc.lanes == 0 || met[arc.to]) {
            return false;
        }
        p = arc.to;
        met[p] = true;
    }
    return p == order.to;
}

std::vector<int> shared_of(const Routes &routes) {
    std::vector<int> shared;
    for (size_t i = 0; i < routes.first_length; i++) {
        for (size_t j = 0; j < routes.second_length; j++) {
            if (routes.first[i] == routes.second[j]) {
                shared.push_back(routes.first[i]);
            }
        }
    }
    std::sort(shared.begin(), shared.end());
    return shared;
}

// Whether `to` can be reached by usable arcs without the arc `but`.
bool leads(const Order &order, int but) {
    std::vector<bool> seen(order.places);
    std::vector<size_t> left{order.from};
    seen[order.from] = true;
    while (!left.empty()) {
        size_t p = left.back();
        left.pop_back();
        for (size_t c = 0; c < order.arcs->size(); c++) {
            const Arc &arc = (*order.arcs)[c];
            if (int(c) != but && arc.from == p && arc.lanes > 0 && !seen[arc.to]) {
                seen[arc.to] = true;
                left.push_back(arc.to);
            }
        }
    }
    return seen[order.to];
}

bool agree(const Order &order, size_t &pairs, size_t &sharing) {
    std::vector<int> needed, simplex, scaling;
    bool possible = leads(order, -1);
    for (size_t c = 0; possible && c < order.arcs->size(); c++) {
        if (!leads(order, int(c))) {
            needed.push_back(int(c));
        }
    }
    for (int c : needed) {
        possible = possible && (*order.arcs)[c].lanes == 2;
    }
    Routes proved, linear;
    proved_routes(order, proved);
    linear_routes(order, linear);
    if ((proved.first_length > 0) != possible || (linear.first_length > 0) != possible ||
        simplex_shared(order, simplex) != possible || scaling_shared(order, scaling) != possible) {
        return false;
    }
    if (!possible) {
        return true;
    }
    pairs++;
    sharing += !needed.empty();
    std::sort(simplex.begin(), simplex.end());
    std::sort(scaling.begin(), scaling.end());
    for (const Routes &routes : {proved, linear}) {
        if (!is_route(order, routes.first, routes.first_length) || !is_route(order, routes.second, routes.second_length) ||
            shared_of(routes) != needed) {
            return false;
        }
    }
    uint32_t cost = 0;
    for (int c : needed) {
        cost += uint32_t(c);
    }
    return simplex == needed && scaling == needed && proved.cost == cost;
}

size_t sink;

} // namespace

extern "C" {
// The whole entry, the load of the image included.
__attribute__((noinline)) void run_entry(const std::vector<Order> &orders) {
    uint8_t output[ROUTE_BOOK_OUTPUT_SIZE];
    for (const Order &order : orders) {
        sink += call(order, RATE, output);
    }
}

// The entry up to the making of the book.
__attribute__((noinline)) void run_load(const std::vector<Order> &orders) {
    uint8_t output[ROUTE_BOOK_OUTPUT_SIZE];
    for (const Order &order : orders) {
        sink += call(order, 0, output);
    }
}

__attribute__((noinline)) void run_linear(const std::vector<Order> &orders) {
    Routes routes;
    for (const Order &order : orders) {
        linear_routes(order, routes);
        sink += routes.first_length;
    }
}

__attribute__((noinline)) void run_simplex(const std::vector<Order> &orders) {
    std::vector<int> shared;
    for (const Order &order : orders) {
        sink += simplex_shared(order, shared);
    }
}

__attribute__((noinline)) void run_scaling(const std::vector<Order> &orders) {
    std::vector<int> shared;
    for (const Order &order : orders) {
        sink += scaling_shared(order, shared);
    }
}
}

namespace {

struct Way {
    const char *name;
    void (*run)(const std::vector<Order> &);
    int rounds;
    double best;
};

double microseconds(void (*run)(const std::vector<Order> &), const std::vector<Order> &orders, int rounds) {
    auto start = std::chrono::steady_clock::now();
    for (int i = 0; i < rounds; i++) {
        run(orders);
    }
    std::chrono::duration<double, std::micro> taken = std::chrono::steady_clock::now() - start;
    return taken.count() / rounds / double(orders.size());
}

} // namespace

int main(int count, char **words) {
    bool worst = count > 2 && strcmp(words[2], "worst") == 0;
    auto networks = worst ? worst_networks() : random_networks();
    auto orders = worst ? std::vector<Order>(400, Order{&networks[0], 128, 0, 127}) : orders_on(networks, 40);
    if (worst) {
        std::fill(orders.begin() + 200, orders.end(), Order{&networks[1], 128, 0, 127});
    }
    for (const auto &arcs : networks) {
        images[&arcs] = image_of(arcs, 128);
    }
    Way ways[] = {{"entry", run_entry, 20, 1e9},
                  {"load", run_load, 20, 1e9},
                  {"linear", run_linear, 20, 1e9},
                  {"simplex", run_simplex, 1, 1e9},
                  {"scaling", run_scaling, 1, 1e9}};
    for (const Way &way : ways) {
        if (count > 1 && strcmp(words[1], way.name) == 0) {
            way.run(orders);
            return 0;
        }
    }
    size_t pairs = 0, sharing = 0;
    for (size_t i = 0; i < orders.size(); i++) {
        if (!agree(orders[i], pairs, sharing)) {
            printf("order %zu: they differ\n", i);
            return 1;
        }
    }
    printf("%zu orders, %zu with a pair, %zu of these with shared arcs: all agree\n", orders.size(), pairs, sharing);
    // In turns, and the best of ten, since the machine may have other work.
    for (int round = 0; round < 10; round++) {
        for (Way &way : ways) {
            way.best = std::min(way.best, microseconds(way.run, orders, way.rounds));
        }
    }
    for (const Way &way : ways) {
        printf("%-8s %8.2f microseconds an order, %6.2f times the linear search\n", way.name, way.best, way.best / ways[2].best);
    }
    double choice = ways[0].best - ways[1].best;
    printf("%-8s %8.2f microseconds an order, %6.2f times the linear search\n", "choice", choice, choice / ways[2].best);
    return 0;
}
