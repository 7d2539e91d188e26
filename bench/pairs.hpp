// What the searches of the benchmark have in common.
#pragma once
#include <cstddef>
#include <cstdint>
#include <vector>

struct Arc {
    uint16_t from;
    uint16_t to;
    uint8_t lanes; // how many of two routes may use it
};

struct Order {
    const std::vector<Arc> *arcs;
    size_t places;
    size_t from;
    size_t to;
};

// Two routes from one place to another; no arcs where the order is refused.
struct Routes {
    size_t first_length = 0;
    size_t second_length = 0;
    uint32_t cost = 0; // what the entry told
    uint16_t first[128];
    uint16_t second[128];
};

// The networks and the orders on them, the same on each run.
std::vector<std::vector<Arc>> random_networks();
std::vector<std::vector<Arc>> worst_networks();
std::vector<Order> orders_on(const std::vector<std::vector<Arc>> &networks, size_t each);

// The search by hand, written for this benchmark alone.
void linear_routes(const Order &order, Routes &routes);

// The arcs that both routes of a cheapest pair use, as LEMON's solvers find them; false where there is no pair.
bool simplex_shared(const Order &order, std::vector<int> &shared);
bool scaling_shared(const Order &order, std::vector<int> &shared);
