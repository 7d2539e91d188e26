// Networks of full size: 128 places and 384 arcs.
#include "pairs.hpp"
#include <random>

namespace {

constexpr size_t PLACES = 128;
constexpr size_t ARCS = 384;

using Random = std::mt19937;

uint16_t place(Random &random, size_t first, size_t count) {
    return uint16_t(first + random() % count);
}

uint8_t lanes(Random &random) {
    unsigned x = random() % 100;
    return x < 4 ? 0 : x < 40 ? 1 : 2;
}

void add(std::vector<Arc> &arcs, Random &random, uint16_t from, uint16_t to) {
    if (from != to && arcs.size() < ARCS) {
        arcs.push_back({from, to, lanes(random)});
    }
}

// Arcs between any two places.
std::vector<Arc> even(Random &random) {
    std::vector<Arc> arcs;
    while (arcs.size() < ARCS) {
        uint16_t from = place(random, 0, PLACES);
        uint16_t to = place(random, 0, PLACES);
        add(arcs, random, from, to);
    }
    return arcs;
}

// Eight regions of sixteen places in a row, with one or two arcs from each to the next.
std::vector<Arc> regions(Random &random) {
    std::vector<Arc> arcs;
    for (size_t r = 0; r + 16 < PLACES; r += 16) {
        size_t links = 1 + random() % 2;
        for (size_t k = 0; k < links; k++) {
            uint16_t from = place(random, r, 16);
            uint16_t to = place(random, r + 16, 16);
            arcs.push_back({from, to, uint8_t(random() % 8 ? 2 : 1)});
            add(arcs, random, to, from);
        }
    }
    while (arcs.size() < ARCS) {
        size_t r = 16 * (random() % (PLACES / 16));
        uint16_t from = place(random, r, 16);
        uint16_t to = place(random, r, 16);
        add(arcs, random, from, to);
    }
    return arcs;
}

// A line of places with arcs to near places, forth and back.
std::vector<Arc> line(Random &random) {
    std::vector<Arc> arcs;
    for (size_t p = 0; p + 1 < PLACES; p++) {
        arcs.push_back({uint16_t(p), uint16_t(p + 1), uint8_t(random() % 16 ? 2 : 1)});
    }
    while (arcs.size() < ARCS) {
        size_t p = random() % (PLACES - 3);
        size_t q = p + 1 + random() % 3;
        if (random() % 2) {
            add(arcs, random, uint16_t(p), uint16_t(q));
        } else {
            add(arcs, random, uint16_t(q), uint16_t(p));
        }
    }
    return arcs;
}

// The numbers of the arcs say nothing of where they lie.
void shuffle(std::vector<Arc> &arcs, Random &random) {
    for (size_t i = arcs.size() - 1; i > 0; i--) {
        std::swap(arcs[i], arcs[random() % (i + 1)]);
    }
}

} // namespace

std::vector<std::vector<Arc>> random_networks() {
    std::vector<std::vector<Arc>> networks;
    Random random(20240607);
    for (int i = 0; i < 20; i++) {
        networks.push_back(i < 10 ? even(random) : i < 16 ? regions(random) : line(random));
        shuffle(networks.back(), random);
    }
    return networks;
}

// A line with 127 gates in a row; with all other arcs back to the start, or between the last two places.
std::vector<std::vector<Arc>> worst_networks() {
    std::vector<std::vector<Arc>> networks(2);
    for (uint16_t p = 0; p + 1 < uint16_t(PLACES); p++) {
        uint16_t q = uint16_t(p + 1);
        for (auto &network : networks) {
            network.push_back({p, q, 2});
        }
        networks[0].push_back({q, 0, 2});
        networks[0].push_back({q, p, 2});
    }
    while (networks[0].size() < ARCS) {
        networks[0].push_back({127, 0, 2});
    }
    while (networks[1].size() < ARCS) {
        networks[1].push_back({126, 0, 2});
    }
    return networks;
}

std::vector<Order> orders_on(const std::vector<std::vector<Arc>> &networks, size_t each) {
    std::vector<Order> orders;
    Random random(7);
    for (size_t n = 0; n < networks.size(); n++) {
        for (size_t i = 0; i < each; i++) {
            size_t from = random() % PLACES;
            size_t to = random() % PLACES;
            if (n >= 10 && from > to) {
                std::swap(from, to);
            }
            if (from == to) {
                to = (to + 1) % PLACES;
            }
            orders.push_back({&networks[n], PLACES, from, to});
        }
    }
    return orders;
}
