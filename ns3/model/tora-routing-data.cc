// SPDX-FileCopyrightText: 2026 the Ginavoru authors
// SPDX-License-Identifier: GPL-2.0-only

#include "tora-routing-protocol.h"

#include "ns3/icmpv4-l4-protocol.h"
#include "ns3/icmpv4.h"
#include "ns3/ipv4-l3-protocol.h"
#include "ns3/ipv4-route.h"
#include "ns3/llc-snap-header.h"
#include "ns3/log.h"
#include "ns3/simulator.h"

#include <algorithm>

namespace ns3::tora
{

NS_LOG_COMPONENT_DEFINE("ToraRoutingData");

namespace
{

/// From one need of a destination to the next, while packets wait.
const Time NEED_INTERVAL = Seconds(1);
/// From one look at what ARP knows to the next, while packets wait for it.
const Time RESOLVE_INTERVAL = MilliSeconds(10);

} // namespace

void
RoutingProtocol::NoteSender(Ptr<NetDevice>,
                            Ptr<const Packet> packet,
                            uint16_t,
                            const Address& from,
                            const Address&,
                            NetDevice::PacketType)
{
    m_cameWith = packet->GetUid();
    m_cameFrom = from;
}

uint32_t
RoutingProtocol::FindDevice(const Address& device) const
{
    for (const auto& [number, neighbour] : m_neighbours)
    {
        if (!device.IsInvalid() && neighbour.device == device)
        {
            return number;
        }
    }
    return 0;
}

uint32_t
RoutingProtocol::NumberOf(Ipv4Address address) const
{
    auto number = m_numbers.find(address);
    return number == m_numbers.end() ? 0 : number->second;
}

uint32_t
RoutingProtocol::HopTo(Ipv4Address destination) const
{
    auto hop = m_hops.find(NumberOf(destination));
    return hop == m_hops.end() ? 0 : hop->second;
}

Ptr<Ipv4Route>
RoutingProtocol::RouteTo(Ipv4Address destination) const
{
    auto neighbour = m_neighbours.find(HopTo(destination));
    if (neighbour == m_neighbours.end() || neighbour->second.isSuspect)
    {
        return nullptr;
    }
    const Neighbour& next = neighbour->second;
    return m_interfaces.GetRoute(destination, next.address, next.heardOn);
}

Ptr<Ipv4Route>
RoutingProtocol::RouteOutput(Ptr<Packet>,
                             const Ipv4Header& header,
                             Ptr<NetDevice> oif,
                             Socket::SocketErrno& sockerr)
{
    NS_LOG_FUNCTION(this << header << oif);
    Ipv4Address destination = header.GetDestination();
    sockerr = Socket::ERROR_NOTERROR;
    if (m_ipv4->GetInterfaceForAddress(destination) >= 0)
    {
        Ptr<Ipv4Route> own = m_interfaces.GetRoute(destination, Ipv4Address::GetLoopback(), 0);
        own->SetSource(destination);
        return own;
    }
    int32_t interface = m_interfaces.GetOfBroadcast(destination);
    if (interface >= 0)
    {
        interface = oif ? m_ipv4->GetInterfaceForDevice(oif) : interface;
        return m_interfaces.GetRoute(destination, destination, interface);
    }
    if (m_interfaces.GetSockets().empty() || (m_router.IsMade() && NumberOf(destination) == 0))
    {
        sockerr = Socket::ERROR_NOROUTETOHOST;
        return nullptr;
    }
    Ptr<Ipv4Route> route = RouteTo(destination);
    if (route && oif && route->GetOutputDevice() != oif)
    {
        sockerr = Socket::ERROR_NOROUTETOHOST;
        return nullptr;
    }
    if (!route)
    {
        // It comes back over loopback, complete, and waits then.
        interface = m_interfaces.GetSockets().begin()->first;
        interface = oif ? m_ipv4->GetInterfaceForDevice(oif) : interface;
        route = m_interfaces.GetRoute(destination, Ipv4Address::GetLoopback(), 0);
        route->SetSource(m_ipv4->GetAddress(interface, 0).GetLocal());
    }
    return route;
}

bool
RoutingProtocol::RouteInput(Ptr<const Packet> p,
                            const Ipv4Header& header,
                            Ptr<const NetDevice> idev,
                            Input::Unicast ucb,
                            Input::Multicast,
                            Input::Local lcb,
                            Input::Error ecb)
{
    NS_LOG_FUNCTION(this << p->GetUid() << header << idev);
    int32_t interface = m_ipv4->GetInterfaceForDevice(idev);
    NS_ASSERT_MSG(interface >= 0, "a packet comes from a device of this node");
    QueueEntry entry{p, header, ucb, ecb, Simulator::Now() + m_maxQueueTime};
    bool isLoopback = interface == 0;
    bool isKnown = !isLoopback && m_isReturnWaiting && m_cameWith == p->GetUid();
    entry.from = isKnown ? FindDevice(m_cameFrom) : 0;
    if (!isLoopback && m_ipv4->GetInterfaceForAddress(header.GetSource()) >= 0)
    {
        Return(entry);
        return true;
    }
    if (m_ipv4->IsDestinationAddress(header.GetDestination(), interface))
    {
        if (lcb.IsNull())
        {
            ecb(p, header, Socket::ERROR_NOROUTETOHOST);
        }
        else
        {
            lcb(p, header, interface);
        }
        return true;
    }
    if (isLoopback)
    {
        // It is the node's own, without a route. Forwarding takes one off, and it has passed no
        // hop.
        entry.header.SetTtl(std::min(header.GetTtl() + 1, 255));
        Forward(entry);
        return true;
    }
    return Pass(entry, interface);
}

bool
RoutingProtocol::Pass(const QueueEntry& entry, uint32_t interface)
{
    if (entry.header.GetDestination().IsMulticast() || entry.header.GetDestination().IsBroadcast())
    {
        return false;
    }
    if (!m_ipv4->IsForwarding(interface))
    {
        Drop(entry, NO_INTERFACE);
    }
    else if (m_history.GetHop(entry.header))
    {
        Return(entry);
    }
    else
    {
        Forward(entry);
    }
    return true;
}

void
RoutingProtocol::Forward(const QueueEntry& entry)
{
    Ipv4Address destination = entry.header.GetDestination();
    if (m_router.IsMade() && NumberOf(destination) == 0)
    {
        Drop(entry, NO_DESTINATION);
        return;
    }
    m_history.Add(entry.header);
    Ptr<Ipv4Route> route = RouteTo(destination);
    if (route && entry.MayGoTo(HopTo(destination)))
    {
        Send(entry, route);
        return;
    }
    NS_LOG_LOGIC("a packet to " << destination << " waits");
    Wait(entry);
}

void
RoutingProtocol::Send(const QueueEntry& entry, Ptr<Ipv4Route> route)
{
    if (m_isReturnWaiting)
    {
        m_history.Add(entry.header, HopTo(entry.header.GetDestination()));
    }
    entry.forward(route, entry.packet, entry.header);
}

void
RoutingProtocol::Return(const QueueEntry& entry)
{
    m_cameBack++;
    if (!m_isReturnWaiting)
    {
        Drop(entry, CAME_BACK);
        return;
    }
    QueueEntry waiting = entry;
    uint32_t hop = HopTo(entry.header.GetDestination());
    waiting.avoided = m_history.GetHop(entry.header).value_or(hop);
    Wait(waiting);
}

void
RoutingProtocol::Wait(const QueueEntry& entry)
{
    if (auto first = m_queue.Enqueue(entry, m_maxQueueLen))
    {
        Drop(*first, QUEUE_FULL);
    }
    ScheduleQueue();
}

void
RoutingProtocol::ScheduleQueue(Time delay)
{
    if (!m_isQueueScheduled)
    {
        m_isQueueScheduled = true;
        Simulator::ScheduleWithContext(GetNodeNumber(),
                                       delay,
                                       &RoutingProtocol::ServeQueue,
                                       Ptr<RoutingProtocol>(this));
    }
}

void
RoutingProtocol::ServeQueue()
{
    m_isQueueScheduled = false;
    if (!m_router.IsMade())
    {
        return;
    }
    Time now = Simulator::Now();
    for (Ipv4Address destination : m_queue.GetDestinations())
    {
        uint32_t number = NumberOf(destination);
        if (number == 0)
        {
            for (auto& entry : m_queue.Take(destination))
            {
                Drop(entry, NO_DESTINATION);
            }
        }
        else if (Ptr<Ipv4Route> route = RouteTo(destination))
        {
            Release(destination, route);
        }
        else if (m_asked.count(number) == 0 || m_asked[number] + NEED_INTERVAL <= now)
        {
            m_asked[number] = now;
            m_router.Need(number, GetTick());
            TakeChanges();
        }
    }
}

void
RoutingProtocol::Release(Ipv4Address destination, Ptr<Ipv4Route> route)
{
    Time now = Simulator::Now();
    uint32_t hop = HopTo(destination);
    uint32_t most = UINT32_MAX;
    if (!m_queue.Has(destination, hop))
    {
        return;
    }
    if (!m_interfaces.IsResolved(route))
    {
        ScheduleQueue(RESOLVE_INTERVAL);
        auto asked = m_resolving.find(route->GetGateway());
        if (asked != m_resolving.end() && asked->second + NEED_INTERVAL > now)
        {
            return;
        }
        m_resolving[route->GetGateway()] = now;
        most = 1;
    }
    for (auto& entry : m_queue.Take(destination, hop, most))
    {
        Send(entry, route);
    }
}

void
RoutingProtocol::Salvage(Ptr<const Packet> packet)
{
    Ptr<Packet> copy = packet->Copy();
    LlcSnapHeader llc;
    Ipv4Header header;
    copy->RemoveHeader(llc);
    if (llc.GetType() != Ipv4L3Protocol::PROT_NUMBER)
    {
        return;
    }
    copy->RemoveHeader(header);
    if (header.GetTtl() < 2)
    {
        return;
    }
    // Each time takes one off, so that it comes to an end.
    header.SetTtl(header.GetTtl() - 1);
    UnicastForwardCallback send(
        [this](Ptr<Ipv4Route> route, Ptr<const Packet> waiting, const Ipv4Header& with) {
            m_ipv4->SendWithHeader(waiting->Copy(), with, route);
        });
    Wait({copy, header, send, ErrorCallback(), Simulator::Now() + m_maxQueueTime});
}

void
RoutingProtocol::Drop(const QueueEntry& entry, DropReason reason)
{
    NS_LOG_LOGIC("drops a packet to " << entry.header.GetDestination() << ": " << reason);
    m_drop(entry.packet, entry.header, reason);
    if (!entry.error.IsNull())
    {
        entry.error(entry.packet, entry.header, Socket::ERROR_NOROUTETOHOST);
    }
    if (reason == TIME_OVER || reason == NO_DESTINATION)
    {
        SendUnreachable(entry);
    }
}

void
RoutingProtocol::SendUnreachable(const QueueEntry& entry)
{
    Ipv4Address source = entry.header.GetSource();
    if (m_interfaces.GetSockets().empty() ||
        entry.header.GetProtocol() == Icmpv4L4Protocol::PROT_NUMBER)
    {
        return;
    }
    Icmpv4DestinationUnreachable unreachable;
    unreachable.SetNextHopMtu(0);
    unreachable.SetHeader(entry.header);
    unreachable.SetData(entry.packet);
    Icmpv4Header icmp;
    icmp.SetType(Icmpv4Header::ICMPV4_DEST_UNREACH);
    icmp.SetCode(Icmpv4DestinationUnreachable::ICMPV4_HOST_UNREACHABLE);
    if (Node::ChecksumEnabled())
    {
        icmp.EnableChecksum();
    }
    Ptr<Packet> packet = Create<Packet>();
    packet->AddHeader(unreachable);
    packet->AddHeader(icmp);
    Ipv4Address own = m_ipv4->GetAddress(m_interfaces.GetSockets().begin()->first, 0).GetLocal();
    m_ipv4->Send(packet, own, source, Icmpv4L4Protocol::PROT_NUMBER, nullptr);
}

} // namespace ns3::tora
