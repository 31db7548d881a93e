// SPDX-License-Identifier: MIT
// A line of four nodes in one program, by a class that owns a handle.
#include <cstdint>
#include <iostream>
#include <map>
#include <optional>
#include <stdexcept>
#include <string>
#include <utility>
#include <vector>

#include <tora.h>

using Bytes = std::vector<std::uint8_t>;
using Ids = std::vector<std::uint32_t>;

// A node. It is moved, and never copied.
class Router {
public:
    Router(std::uint32_t me, const Ids &neighbours, const Ids &destinations, std::uint64_t first_life) {
        const tora_times times = TORA_STANDARD_TIMES;
        done(tora_router_new(&handle, me, neighbours.data(), neighbours.size(), destinations.data(),
                             destinations.size(), TORA_PLAIN, &times, first_life));
    }
    Router(Router &&other) noexcept : handle(std::exchange(other.handle, TORA_ROUTER_NULL)) {}
    Router(const Router &) = delete;
    Router &operator=(const Router &) = delete;
    ~Router() { tora_router_free(&handle); }

    void tick(std::uint64_t now) { done(tora_router_tick(&handle, now)); }
    void need(std::uint32_t d, std::uint64_t now) { done(tora_router_need(&handle, d, now)); }
    void datagram(std::uint32_t peer, const Bytes &bytes, std::uint64_t now) {
        std::uint32_t intake;
        done(tora_router_datagram(&handle, peer, bytes.data(), bytes.size(), now, &intake));
    }

    // The next datagram that is due, and the neighbour that it is for.
    std::optional<std::pair<std::uint32_t, Bytes>> poll_datagram(std::uint64_t now) {
        std::uint32_t peer;
        std::size_t length;
        Bytes bytes(TORA_LONGEST_DATAGRAM);
        if (absent(tora_router_poll_datagram(&handle, now, &peer, bytes.data(), bytes.size(), &length))) return {};
        bytes.resize(length);
        return {{peer, std::move(bytes)}};
    }

    std::optional<tora_height> height(std::uint32_t d) {
        tora_height found;
        if (absent(tora_router_height(&handle, d, &found))) return {};
        return found;
    }
    std::optional<std::uint32_t> next_hop(std::uint32_t d) {
        std::uint32_t hop;
        if (absent(tora_router_next_hop(&handle, d, &hop))) return {};
        return hop;
    }

private:
    tora_router handle = TORA_ROUTER_NULL;

    static void done(std::uint32_t code) {
        if (code != TORA_OK) throw std::runtime_error("tora answers " + std::to_string(code));
    }
    static bool absent(std::uint32_t code) {
        if (code != TORA_ABSENT) done(code);
        return code == TORA_ABSENT;
    }
};

// Hands each datagram that is due to the router that it is for, until none is.
static void settle(std::map<std::uint32_t, Router> &routers, std::uint64_t now) {
    bool carried = true;
    while (std::exchange(carried, false))
        for (auto &[node, router] : routers)
            while (auto sent = router.poll_datagram(now)) {
                routers.at(sent->first).datagram(node, sent->second, now);
                carried = true;
            }
}

int main() {
    const std::uint32_t nodes = 4, destination = 4;
    std::map<std::uint32_t, Router> routers;
    for (std::uint32_t node = 1; node <= nodes; node++) {
        Ids neighbours;
        if (node > 1) neighbours.push_back(node - 1);
        if (node < nodes) neighbours.push_back(node + 1);
        routers.emplace(node, Router(node, neighbours, {destination}, 1));
    }
    for (std::uint64_t now = 0; now < 2; now++) {
        for (auto &[node, router] : routers) router.tick(now);
        if (now == 1) routers.at(1).need(destination, now); // all links are up
        settle(routers, now);
    }
    for (auto &[node, router] : routers) {
        std::cout << "node " << node << ' ';
        if (auto h = router.height(destination))
            std::cout << '(' << h->tau << ',' << h->oid << ',' << h->r << ',' << h->delta << ',' << h->id << ')';
        else
            std::cout << '-';
        auto hop = router.next_hop(destination);
        std::cout << " hop " << (hop ? std::to_string(*hop) : "-") << '\n';
    }
}
