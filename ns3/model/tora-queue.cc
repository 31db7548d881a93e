// SPDX-FileCopyrightText: 2026 the Ginavoru authors
// SPDX-License-Identifier: GPL-2.0-only

#include "tora-queue.h"

#include "ns3/simulator.h"

#include <algorithm>
#include <iterator>

namespace ns3::tora
{

namespace
{

/// How long a data packet is known that was sent or forwarded.
const Time SEEN_LIMIT = Seconds(10);

} // namespace

bool
QueueEntry::MayGoTo(uint32_t hop) const
{
    return hop == 0 || (hop != from && hop != avoided);
}

std::optional<QueueEntry>
RequestQueue::Enqueue(const QueueEntry& entry, uint32_t length)
{
    m_entries.push_back(entry);
    if (m_entries.size() <= length)
    {
        return std::nullopt;
    }
    QueueEntry first = m_entries.front();
    m_entries.pop_front();
    return first;
}

bool
RequestQueue::Has(Ipv4Address destination, uint32_t hop) const
{
    return std::any_of(m_entries.begin(), m_entries.end(), [=](const QueueEntry& entry) {
        return entry.header.GetDestination() == destination && entry.MayGoTo(hop);
    });
}

std::vector<QueueEntry>
RequestQueue::TakeIf(const std::function<bool(const QueueEntry&)>& test)
{
    std::vector<QueueEntry> taken;
    m_entries.remove_if([&](const QueueEntry& entry) {
        bool isTaken = test(entry);
        if (isTaken)
        {
            taken.push_back(entry);
        }
        return isTaken;
    });
    return taken;
}

std::vector<QueueEntry>
RequestQueue::Take(Ipv4Address destination, uint32_t hop, uint32_t most)
{
    return TakeIf([destination, hop, &most](const QueueEntry& entry) {
        bool isTaken =
            entry.header.GetDestination() == destination && entry.MayGoTo(hop) && most > 0;
        most -= isTaken;
        return isTaken;
    });
}

std::vector<QueueEntry>
RequestQueue::TakeExpired(Time now)
{
    return TakeIf([now](const QueueEntry& entry) { return entry.until <= now; });
}

std::set<Ipv4Address>
RequestQueue::GetDestinations() const
{
    std::set<Ipv4Address> destinations;
    for (const auto& entry : m_entries)
    {
        destinations.insert(entry.header.GetDestination());
    }
    return destinations;
}

void
PacketHistory::Add(const Ipv4Header& header, uint32_t hop)
{
    m_seen[NameOf(header)] = {Simulator::Now(), hop};
}

std::optional<uint32_t>
PacketHistory::GetHop(const Ipv4Header& header) const
{
    auto seen = m_seen.find(NameOf(header));
    return seen == m_seen.end() ? std::nullopt : std::optional<uint32_t>(seen->second.hop);
}

void
PacketHistory::Expire()
{
    Time now = Simulator::Now();
    for (auto it = m_seen.begin(); it != m_seen.end();)
    {
        it = it->second.last + SEEN_LIMIT < now ? m_seen.erase(it) : std::next(it);
    }
}

PacketHistory::Name
PacketHistory::NameOf(const Ipv4Header& header)
{
    return {header.GetSource().Get(),
            header.GetDestination().Get(),
            header.GetProtocol(),
            header.GetIdentification(),
            header.GetFragmentOffset()};
}

} // namespace ns3::tora
