// Two routes by a search in linear time, written by hand: one route by breadth first search, then the residual search with
// that route's arcs turned round, which crosses an arc of the route only where nothing else is left, and then the two
// routes read off the arcs in use.
#include "pairs.hpp"
#include <cstring>

namespace {

constexpr size_t PLACES = 128;
constexpr size_t ARCS = 384;
constexpr uint16_t NONE = 0xffff;

// The arcs that start at a place stand next to one another, from first[place] to first[place + 1].
struct Starts {
    uint16_t first[PLACES + 2];
    uint16_t arc[ARCS];
};

void fill(Starts &starts, const Arc *arcs, size_t count, size_t places) {
    memset(starts.first, 0, (places + 2) * sizeof starts.first[0]);
    for (size_t c = 0; c < count; c++) {
        starts.first[arcs[c].from + 2]++;
    }
    for (size_t p = 2; p < places + 2; p++) {
        starts.first[p] += starts.first[p - 1];
    }
    for (size_t c = 0; c < count; c++) {
        starts.arc[starts.first[arcs[c].from + 1]++] = uint16_t(c);
    }
}

// A route by as few arcs as can be, in its order; its length, or 0 where there is none.
size_t shortest(const Arc *arcs, const Starts &starts, size_t places, size_t from, size_t to, uint16_t *route) {
    uint16_t via[PLACES];
    uint8_t queue[PLACES];
    memset(via, 0xff, places * sizeof via[0]);
    size_t head = 0, tail = 0;
    queue[tail++] = uint8_t(from);
    while (head < tail && via[to] == NONE) {
        size_t p = queue[head++];
        for (size_t i = starts.first[p]; i < starts.first[p + 1]; i++) {
            size_t c = starts.arc[i], q = arcs[c].to;
            if (arcs[c].lanes && via[q] == NONE && q != from) {
                via[q] = uint16_t(c);
                queue[tail++] = uint8_t(q);
            }
        }
    }
    if (via[to] == NONE) {
        return 0;
    }
    size_t length = 0;
    for (size_t p = to; p != from; p = arcs[via[p]].from) {
        length++;
    }
    size_t i = length;
    for (size_t p = to; p != from; p = arcs[via[p]].from) {
        route[--i] = via[p];
    }
    return length;
}

// One unit more beside the route that is in use, which is sent; false where there is no room.
bool second_unit(const Arc *arcs, const Starts &starts, size_t places, size_t from, size_t to, const uint16_t *route, size_t length, uint8_t *used) {
    uint16_t via[PLACES];
    uint8_t seen[PLACES], at[PLACES], queue[PLACES];
    memset(seen, 0, places);
    memset(at, 0xff, places);
    for (size_t i = 0; i < length; i++) {
        at[arcs[route[i]].from] = uint8_t(i);
    }
    at[to] = uint8_t(length);
    size_t head = 0, tail = 0, furthest = 0;
    queue[tail++] = uint8_t(from);
    seen[from] = 1;
    while (!seen[to]) {
        if (head == tail) {
            size_t c = route[furthest], q = arcs[c].to;
            if (arcs[c].lanes < 2) {
                return false;
            }
            seen[q] = 1;
            via[q] = uint16_t(c);
            queue[tail++] = uint8_t(q);
            furthest++;
            continue;
        }
        size_t p = queue[head++];
        if (at[p] != 0xff) {
            if (at[p] > furthest) {
                furthest = at[p];
            }
            if (at[p] > 0) {
                size_t c = route[at[p] - 1], q = arcs[c].from;
                if (!seen[q]) {
                    seen[q] = 1;
                    via[q] = uint16_t(c);
                    queue[tail++] = uint8_t(q);
                }
            }
        }
        for (size_t i = starts.first[p]; i < starts.first[p + 1]; i++) {
            size_t c = starts.arc[i], q = arcs[c].to;
            if (arcs[c].lanes && !used[c] && !seen[q]) {
                seen[q] = 1;
                via[q] = uint16_t(c);
                queue[tail++] = uint8_t(q);
            }
        }
    }
    for (size_t p = to; p != from;) {
        size_t c = via[p];
        if (arcs[c].to == p) {
            used[c]++;
            p = arcs[c].from;
        } else {
            used[c]--;
            p = arcs[c].to;
        }
    }
    return true;
}

// Takes one route out of the arcs in use; a place that is met again takes the way between out of the route.
size_t take(const Arc *arcs, const Starts &starts, size_t places, size_t from, size_t to, uint8_t *used, uint16_t *route) {
    uint8_t at[PLACES];
    memset(at, 0xff, places);
    size_t length = 0, p = from;
    at[from] = 0;
    while (p != to) {
        size_t i = starts.first[p];
        while (!used[starts.arc[i]]) {
            i++;
        }
        size_t c = starts.arc[i];
        used[c]--;
        p = arcs[c].to;
        if (at[p] != 0xff) {
            while (length > at[p]) {
                length--;
                at[arcs[route[length]].to] = 0xff;
            }
            at[p] = uint8_t(length);
        } else {
            route[length++] = uint16_t(c);
            at[p] = uint8_t(length);
        }
    }
    return length;
}

} // namespace

void linear_routes(const Order &order, Routes &routes) {
    const Arc *arcs = order.arcs->data();
    size_t count = order.arcs->size();
    routes.first_length = routes.second_length = 0;
    Starts starts;
    fill(starts, arcs, count, order.places);
    uint16_t route[PLACES];
    size_t length = shortest(arcs, starts, order.places, order.from, order.to, route);
    if (length == 0) {
        return;
    }
    uint8_t used[ARCS];
    memset(used, 0, count);
    for (size_t i = 0; i < length; i++) {
        used[route[i]] = 1;
    }
    if (!second_unit(arcs, starts, order.places, order.from, order.to, route, length, used)) {
        return;
    }
    routes.first_length = take(arcs, starts, order.places, order.from, order.to, used, routes.first);
    routes.second_length = take(arcs, starts, order.places, order.from, order.to, used, routes.second);
}
