// SPDX-FileCopyrightText: 2026 the Ginavoru authors
// SPDX-License-Identifier: GPL-2.0-only

#include "tora-comparison.h"

#include "ns3/arp-cache.h"
#include "ns3/arp-l3-protocol.h"
#include "ns3/core-module.h"
#include "ns3/mobility-module.h"
#include "ns3/seq-ts-header.h"
#include "ns3/wifi-module.h"
#include "ns3/wifi-mpdu.h"

#include <algorithm>
#include <queue>

namespace ns3
{

namespace
{

/// The UDP ports of the four protocols: AODV, OLSR, DSDV and TORA.
const std::vector<uint16_t> CONTROL_PORTS{654, 698, 269, tora::RoutingProtocol::PORT};

} // namespace

void
ToraComparison::WatchPackets()
{
    for (uint32_t i = 0; i < m_nodes.GetN(); i++)
    {
        Ptr<Ipv4L3Protocol> ip = m_nodes.Get(i)->GetObject<Ipv4L3Protocol>();
        ip->TraceConnectWithoutContext("Tx", MakeCallback(&ToraComparison::CountControl, this));
        // (the node is told here: DSDV's first updates are sent where the simulator is at no node)
        Callback<void, const Ipv4Header&, Ptr<const Packet>, uint32_t> forward(
            [this, i](const Ipv4Header& header, Ptr<const Packet> packet, uint32_t) {
                CountHop(i, header, packet);
            });
        ip->TraceConnectWithoutContext("UnicastForward", forward);
        WatchDrops(i);
        if (auto tora = m_nodes.Get(i)->GetObject<tora::RoutingProtocol>())
        {
            WatchTora(tora);
        }
    }
}

void
ToraComparison::WatchDrops(uint32_t node)
{
    Callback<void, WifiMacDropReason, Ptr<const WifiMpdu>> radio(
        [this](WifiMacDropReason, Ptr<const WifiMpdu> mpdu) {
            Note(mpdu->GetPacket(), Fate::RADIO);
        });
    DynamicCast<WifiNetDevice>(m_devices.Get(node))
        ->GetMac()
        ->TraceConnectWithoutContext("DroppedMpdu", radio);
    Callback<void, Ptr<const Packet>> arp(
        [this](Ptr<const Packet> packet) { Note(packet, Fate::ARP); });
    Ptr<Node> at = m_nodes.Get(node);
    at->GetObject<ArpL3Protocol>()->TraceConnectWithoutContext("Drop", arp);
    Ptr<Ipv4L3Protocol> ip = at->GetObject<Ipv4L3Protocol>();
    ip->GetInterface(1)->GetArpCache()->TraceConnectWithoutContext("Drop", arp);
    Callback<void,
             const Ipv4Header&,
             Ptr<const Packet>,
             Ipv4L3Protocol::DropReason,
             Ptr<Ipv4>,
             uint32_t>
        dropped([this](const Ipv4Header&,
                       Ptr<const Packet> packet,
                       Ipv4L3Protocol::DropReason,
                       Ptr<Ipv4>,
                       uint32_t) { Note(packet, Fate::NO_ROUTE); });
    ip->TraceConnectWithoutContext("Drop", dropped);
}

void
ToraComparison::WatchTora(Ptr<tora::RoutingProtocol> tora)
{
    tora->TraceConnectWithoutContext("Control", MakeCallback(&ToraComparison::CountFrames, this));
    tora->TraceConnectWithoutContext(
        "Drop",
        Callback<void, Ptr<const Packet>, const Ipv4Header&, tora::RoutingProtocol::DropReason>(
            [this](Ptr<const Packet> packet,
                   const Ipv4Header&,
                   tora::RoutingProtocol::DropReason reason) {
                m_late += reason == tora::RoutingProtocol::TIME_OVER;
                Note(packet,
                     reason == tora::RoutingProtocol::CAME_BACK ? Fate::CAME_BACK : Fate::LATE);
            }));
}

void
ToraComparison::Note(Ptr<const Packet> packet, Fate fate)
{
    auto under = m_under.find(packet->GetUid());
    // IP tells of what TORA drops, too, behind TORA.
    if (under != m_under.end() &&
        (fate != Fate::NO_ROUTE ||
         (under->second.fate != Fate::CAME_BACK && under->second.fate != Fate::LATE)))
    {
        under->second.fate = fate;
    }
}

void
ToraComparison::Send(Ptr<Socket> socket, uint32_t to)
{
    SeqTsHeader header;
    header.SetSeq(m_sequence++);
    Ptr<Packet> packet = Create<Packet>(m_setup.size - header.GetSerializedSize());
    packet->AddHeader(header);
    UnderWay& under = m_under[packet->GetUid()];
    under.source = socket->GetNode()->GetObject<Ipv4>()->GetAddress(1, 0).GetLocal();
    under.least = Shortest(socket->GetNode()->GetId(), to);
    m_reachable += under.least > 0;
    if (socket->Send(packet) < 0)
    {
        under.fate = Fate::NO_ROUTE;
    }
}

void
ToraComparison::Receive(Ptr<Socket> socket)
{
    while (Ptr<Packet> packet = socket->Recv())
    {
        SeqTsHeader header;
        packet->RemoveHeader(header);
        if (!m_arrived.insert(header.GetSeq()).second)
        {
            continue;
        }
        m_delays.push_back((Simulator::Now() - header.GetTs()).GetSeconds() * 1000);
        UnderWay& under = m_under[packet->GetUid()];
        under.hasArrived = true;
        m_hops += under.hops;
        if (under.least > 0)
        {
            m_reached++;
            m_leastHops += under.least;
            m_pathHops += under.hops;
        }
    }
}

void
ToraComparison::CountControl(Ptr<const Packet> packet, Ptr<Ipv4>, uint32_t)
{
    Ptr<Packet> copy = packet->Copy();
    Ipv4Header ip;
    UdpHeader udp;
    copy->RemoveHeader(ip);
    if (ip.GetProtocol() != UdpL4Protocol::PROT_NUMBER || ip.GetFragmentOffset() > 0)
    {
        return;
    }
    copy->RemoveHeader(udp);
    if (std::count(CONTROL_PORTS.begin(), CONTROL_PORTS.end(), udp.GetDestinationPort()) > 0)
    {
        m_controlPackets++;
        m_controlBytes += packet->GetSize();
        m_controlMost.Add(Simulator::Now(), packet->GetSize());
    }
}

void
ToraComparison::CountFrames(Ptr<const Packet>, const tora::ToraHeader& header)
{
    for (const auto& frame : header.GetFrames())
    {
        m_frames[frame.GetKind()]++;
    }
}

void
ToraComparison::CountHop(uint32_t node, const Ipv4Header& header, Ptr<const Packet> packet)
{
    auto under = m_under.find(packet->GetUid());
    if (under != m_under.end() && header.GetSource() == under->second.source &&
        m_interfaces.GetAddress(node) != under->second.source)
    {
        under->second.hops++;
    }
}

uint32_t
ToraComparison::Shortest(uint32_t from, uint32_t to) const
{
    std::vector<Vector> places;
    for (uint32_t i = 0; i < m_nodes.GetN(); i++)
    {
        places.push_back(m_nodes.Get(i)->GetObject<MobilityModel>()->GetPosition());
    }
    std::vector<uint32_t> hops(places.size(), 0);
    std::queue<uint32_t> next;
    next.push(from);
    while (!next.empty())
    {
        uint32_t at = next.front();
        next.pop();
        for (uint32_t k = 0; k < places.size(); k++)
        {
            if (k != from && hops[k] == 0 &&
                CalculateDistance(places[at], places[k]) <= m_setup.range)
            {
                hops[k] = hops[at] + 1;
                next.push(k);
            }
        }
    }
    return hops[to];
}

} // namespace ns3
