// SPDX-FileCopyrightText: 2026 the Ginavoru authors
// SPDX-License-Identifier: GPL-2.0-only

#include "tora-routing-protocol.h"

#include "ns3/inet-socket-address.h"
#include "ns3/ipv4-route.h"
#include "ns3/log.h"
#include "ns3/simulator.h"
#include "ns3/udp-l4-protocol.h"
#include "ns3/wifi-mac.h"
#include "ns3/wifi-mpdu.h"

#include <algorithm>
#include <utility>

namespace ns3::tora
{

NS_LOG_COMPONENT_DEFINE("ToraRoutingFrames");

namespace
{

/// Bytes of the headers of IPv4 and UDP.
constexpr uint32_t IP_UDP_SIZE = 28;
/// How long a broadcast packet is waited for that a radio does not send.
const Time RADIO_LIMIT = Seconds(1);

/// Adds a frame to a list, in the place of those that say nothing that it doesn't say.
void
Replace(std::list<Frame>& frames, const Frame& frame)
{
    frames.remove_if([&](const Frame& earlier) { return frame.Supersedes(earlier); });
    frames.push_back(frame);
}

} // namespace

void
RoutingProtocol::OnTick()
{
    m_tickEvent = Simulator::Schedule(m_tick, &RoutingProtocol::OnTick, this);
    if (!m_router.IsMade())
    {
        return;
    }
    Time now = Simulator::Now();
    HandIn();
    m_router.Tick(GetTick());
    while (auto frame = m_router.PollFrame(GetTick()))
    {
        TakeFrame(*frame);
    }
    TakeChanges();
    ExpireNeighbours();
    for (auto& entry : m_queue.TakeExpired(now))
    {
        Drop(entry, TIME_OVER);
    }
    m_history.Expire();
    ServeQueue();
    if (m_isUrgent || now + m_tick >= m_lastBroadcast + m_beaconInterval)
    {
        ScheduleBroadcast(m_tick);
    }
}

void
RoutingProtocol::TakeFrame(const Frame& frame)
{
    bool isHello = frame.GetKind() == Frame::HELLO;
    auto neighbour = m_neighbours.find(frame.GetReceiver());
    if (neighbour == m_neighbours.end())
    {
        // It is not sent to a node that is not heard. A HELLO is kept for when it is.
        if (isHello)
        {
            Replace(m_hellos[frame.GetReceiver()], frame);
        }
        return;
    }
    if (isHello && frame.GetVersion() < neighbour->second.newest)
    {
        return;
    }
    if (m_unicast.count(frame.GetReceiver()) > 0)
    {
        SendWhole(frame, neighbour->second);
        return;
    }
    Replace(m_due, frame);
    std::vector<uint8_t> lives = frame.GetLives();
    m_isUrgent |= !isHello || lives != neighbour->second.hello;
    if (isHello)
    {
        neighbour->second.hello = lives;
    }
}

void
RoutingProtocol::SendWhole(const Frame& frame, const Neighbour& to)
{
    Ptr<Packet> packet = Create<Packet>(frame.GetBytes().data(), frame.GetBytes().size());
    Ptr<Ipv4Route> route = m_interfaces.GetRoute(to.address, to.address, to.heardOn);
    ToraHeader header(m_number);
    header.AddFrame(frame);
    m_controlTrace(packet, header);
    m_controlBytes += packet->GetSize() + IP_UDP_SIZE;
    auto udp = m_ipv4->GetObject<UdpL4Protocol>();
    udp->Send(packet, route->GetSource(), to.address, PORT, PORT, route);
}

void
RoutingProtocol::TakeChanges()
{
    while (auto change = m_router.PollChange())
    {
        switch (change->kind)
        {
        case Change::LINK_UP:
            NS_LOG_LOGIC("link to " << Ipv4Address(change->node) << " up");
            m_linkUpTrace(Ipv4Address(change->node));
            break;
        case Change::LINK_DOWN:
            NS_LOG_LOGIC("link to " << Ipv4Address(change->node) << " down: " << change->reason);
            m_linkDownTrace(Ipv4Address(change->node), change->reason);
            break;
        case Change::NEXT_HOP:
            SetNextHop(change->node, change->hop);
            break;
        }
    }
}

void
RoutingProtocol::SetNextHop(uint32_t destination, uint32_t neighbour)
{
    NS_LOG_LOGIC("next hop to " << Ipv4Address(destination) << ": " << Ipv4Address(neighbour));
    uint32_t before = std::exchange(m_hops[destination], neighbour);
    m_routeTrace(Ipv4Address(destination), Ipv4Address(before), Ipv4Address(neighbour));
    if (neighbour != 0 && m_queue.GetSize() > 0)
    {
        ScheduleQueue();
    }
}

void
RoutingProtocol::ScheduleBroadcast(Time within)
{
    if (!m_isScheduled)
    {
        m_isScheduled = true;
        Simulator::ScheduleWithContext(GetNodeNumber(),
                                       m_random->GetValue(0, 1) * within,
                                       &RoutingProtocol::Broadcast,
                                       Ptr<RoutingProtocol>(this));
    }
}

void
RoutingProtocol::Broadcast()
{
    m_isScheduled = false;
    Time now = Simulator::Now();
    bool isWaiting = !m_unsent.empty() && now < m_lastBroadcast + RADIO_LIMIT;
    if (!m_router.IsMade() || isWaiting ||
        (!m_isUrgent && now + m_tick < m_lastBroadcast + m_beaconInterval))
    {
        return;
    }
    ToraHeader header = TakePacket();
    m_lastBroadcast = now;
    m_unsent.clear();
    for (const auto& [interface, socket] : m_interfaces.GetSockets())
    {
        Ptr<Packet> packet = Create<Packet>();
        packet->AddHeader(header);
        m_controlTrace(packet, header);
        m_controlBytes += packet->GetSize() + IP_UDP_SIZE;
        if (m_radios.count(interface) > 0)
        {
            m_unsent.insert(packet->GetUid());
        }
        socket->SendTo(packet, 0, InetSocketAddress(Ipv4Address::GetBroadcast(), PORT));
    }
    m_isUrgent = !m_due.empty();
    if (m_isUrgent)
    {
        ScheduleBroadcast(m_tick / 10);
    }
}

ToraHeader
RoutingProtocol::TakePacket()
{
    ToraHeader header(m_number);
    uint32_t size = IP_UDP_SIZE + header.GetSerializedSize();
    auto frame = m_due.begin();
    while (frame != m_due.end() && size + frame->GetBytes().size() < MAX_PACKET_SIZE)
    {
        header.AddFrame(*frame);
        size = IP_UDP_SIZE + header.GetSerializedSize();
        frame++;
    }
    m_due.erase(m_due.begin(), frame);
    return header;
}

void
RoutingProtocol::OnTxBegin(Ptr<const Packet> packet, double)
{
    // Its number stays the same through the headers of the stack.
    if (m_unsent.erase(packet->GetUid()) > 0 && m_unsent.empty() && m_isUrgent)
    {
        ScheduleBroadcast(m_tick / 10);
    }
}

void
RoutingProtocol::Receive(Ptr<Socket> socket)
{
    Address from;
    while (Ptr<Packet> packet = socket->RecvFrom(from))
    {
        Ipv4Address address = InetSocketAddress::ConvertFrom(from).GetIpv4();
        ToraHeader header(address.Get());
        if (m_unicast.count(address.Get()) > 0 && packet->GetSize() >= Frame::HEADER_SIZE)
        {
            std::vector<uint8_t> bytes(packet->GetSize());
            packet->CopyData(bytes.data(), bytes.size());
            header.AddFrame(Frame(std::move(bytes)));
        }
        else if (packet->RemoveHeader(header) == 0 || packet->GetSize() > 0)
        {
            NS_LOG_LOGIC("a packet that is none of TORA");
            m_malformed++;
            continue;
        }
        uint32_t sender = header.GetSender();
        if (!m_router.IsMade() || m_peers.count(sender) == 0)
        {
            NS_LOG_LOGIC("a packet of " << Ipv4Address(sender) << ", which is no neighbour");
            continue;
        }
        int32_t interface = m_ipv4->GetInterfaceForDevice(socket->GetBoundNetDevice());
        Hear(header, address, interface, packet->GetUid());
        for (const auto& frame : header.GetFrames())
        {
            if (frame.GetReceiver() == m_number)
            {
                m_arrived[sender].push_back(frame);
            }
        }
    }
}

void
RoutingProtocol::HandIn()
{
    for (const auto& [sender, frames] : std::exchange(m_arrived, {}))
    {
        for (const auto& frame : frames)
        {
            if (!m_router.Take(sender, frame, GetTick()))
            {
                NS_LOG_LOGIC("a frame that is none of the link: " << frame);
                m_malformed++;
            }
        }
    }
}

void
RoutingProtocol::Hear(const ToraHeader& header,
                      Ipv4Address address,
                      uint32_t interface,
                      uint64_t packet)
{
    uint32_t number = header.GetSender();
    bool isNew = m_neighbours.count(number) == 0;
    Neighbour& neighbour = m_neighbours[number];
    neighbour.address = address;
    neighbour.heardOn = interface;
    neighbour.heard = Simulator::Now();
    neighbour.isNoticed = false;
    if (m_cameWith == packet)
    {
        neighbour.device = m_cameFrom;
    }
    m_interfaces.Revive(address, interface);
    for (const auto& frame : header.GetFrames())
    {
        neighbour.newest = std::max(neighbour.newest, std::min(frame.GetVersion(), Frame::NEWEST));
    }
    if (neighbour.isSuspect)
    {
        neighbour.isSuspect = false;
        ScheduleQueue();
    }
    if (isNew)
    {
        NS_LOG_LOGIC("hears " << address);
        for (const auto& hello : std::exchange(m_hellos[number], {}))
        {
            TakeFrame(hello);
        }
    }
}

void
RoutingProtocol::Cut(uint32_t neighbour)
{
    NS_LOG_LOGIC("cuts the link to " << Ipv4Address(neighbour));
    // A node that loses its last entry loses its height, and tells nobody; so all that came counts.
    HandIn();
    m_router.Cut(neighbour, GetTick());
    TakeChanges();
}

void
RoutingProtocol::ExpireNeighbours()
{
    Time now = Simulator::Now();
    Time missed = 2 * (m_beaconInterval + m_tick);
    for (auto it = m_neighbours.begin(); it != m_neighbours.end();)
    {
        auto& [number, neighbour] = *it;
        if (m_isNoticing && !neighbour.isNoticed && neighbour.heard + missed < now)
        {
            neighbour.isNoticed = true;
            Cut(number);
        }
        if (neighbour.heard + m_heardTimeout >= now)
        {
            it++;
            continue;
        }
        NS_LOG_LOGIC("hears no more of " << neighbour.address);
        uint32_t gone = number;
        m_due.remove_if([gone](const Frame& frame) { return frame.GetReceiver() == gone; });
        it = m_neighbours.erase(it);
    }
}

void
RoutingProtocol::OnDroppedMpdu(WifiMacDropReason reason, Ptr<const WifiMpdu> mpdu)
{
    if (reason != WIFI_MAC_DROP_REACHED_RETRY_LIMIT)
    {
        return;
    }
    uint32_t number = FindDevice(mpdu->GetHeader().GetAddr1());
    if (number == 0)
    {
        return;
    }
    NS_LOG_LOGIC("the radio gives up a frame to " << Ipv4Address(number));
    if (m_isSalvaging)
    {
        m_neighbours[number].isSuspect = true;
        Salvage(mpdu->GetPacket());
    }
    if (m_isNoticing)
    {
        Cut(number);
    }
}

} // namespace ns3::tora
