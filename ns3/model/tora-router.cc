// SPDX-FileCopyrightText: 2026 the Ginavoru authors
// SPDX-License-Identifier: GPL-2.0-only

#include "tora-router.h"

#include "ns3/fatal-error.h"

#include <tora.h>

namespace ns3::tora
{

/// The library's handle.
struct Router::Handle
{
    tora_router at = TORA_ROUTER_NULL; //!< what the library keeps
};

Router::Router()
    : m_handle(std::make_unique<Handle>())
{
}

Router::~Router()
{
    Free();
}

void
Router::Make(const RouterConfig& config)
{
    tora_times times{config.helloTicks, config.silentTicks, config.retryTicks, config.tries};
    uint32_t code = tora_router_new(&m_handle->at,
                                    config.me,
                                    config.neighbours.data(),
                                    config.neighbours.size(),
                                    config.destinations.data(),
                                    config.destinations.size(),
                                    config.erasure == PLAIN ? TORA_PLAIN : TORA_REMEMBERED,
                                    &times,
                                    config.firstLife);
    if (code != TORA_OK)
    {
        NS_FATAL_ERROR("tora: libtora makes no router of node "
                       << config.me << " with " << config.neighbours.size()
                       << " possible neighbours (at most " << MOST_NEIGHBOURS << ") and "
                       << config.destinations.size() << " destinations (at most "
                       << MOST_DESTINATIONS << "): code " << code
                       << ". ToraHelper::AddLink and AddDestinations, or the attributes Neighbours "
                          "and Destinations, name fewer");
    }
}

void
Router::Free()
{
    tora_router_free(&m_handle->at);
}

bool
Router::IsMade() const
{
    return m_handle->at.at != nullptr;
}

bool
Router::Take(uint32_t peer, const Frame& frame, uint64_t now)
{
    uint32_t intake = TORA_INTAKE_NO_NEIGHBOUR;
    const std::vector<uint8_t>& bytes = frame.GetBytes();
    tora_router_datagram(&m_handle->at, peer, bytes.data(), bytes.size(), now, &intake);
    return intake < TORA_INTAKE_SHORT && intake != TORA_INTAKE_FOREIGN;
}

void
Router::Tick(uint64_t now)
{
    tora_router_tick(&m_handle->at, now);
}

void
Router::Need(uint32_t destination, uint64_t now)
{
    tora_router_need(&m_handle->at, destination, now);
}

void
Router::Cut(uint32_t peer, uint64_t now)
{
    tora_router_cut(&m_handle->at, peer, now);
}

std::optional<Frame>
Router::PollFrame(uint64_t now)
{
    uint8_t bytes[TORA_LONGEST_DATAGRAM];
    uint32_t peer = 0;
    std::size_t size = 0;
    auto code = tora_router_poll_datagram(&m_handle->at, now, &peer, bytes, sizeof(bytes), &size);
    return code == TORA_OK ? std::optional<Frame>(Frame({bytes, bytes + size})) : std::nullopt;
}

std::optional<Change>
Router::PollChange()
{
    tora_change change;
    if (tora_router_poll_change(&m_handle->at, &change) != TORA_OK)
    {
        return std::nullopt;
    }
    return Change{static_cast<Change::Kind>(change.kind),
                  change.node,
                  change.hop,
                  static_cast<DownReason>(change.reason)};
}

uint64_t
Router::GetNextLife() const
{
    uint64_t life = 1;
    tora_router_next_life(&m_handle->at, &life);
    return life;
}

std::string
Router::Show() const
{
    std::size_t size = 0;
    tora_router_show(&m_handle->at, nullptr, 0, &size);
    std::vector<uint8_t> text(size);
    tora_router_show(&m_handle->at, text.data(), text.size(), &size);
    return std::string(text.begin(), text.end());
}

} // namespace ns3::tora
