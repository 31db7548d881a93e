// SPDX-FileCopyrightText: 2026 the Ginavoru authors
// SPDX-License-Identifier: GPL-2.0-only

#include "tora-comparison.h"

#include <algorithm>
#include <iostream>
#include <sstream>

namespace ns3
{

uint32_t
ToraComparison::Lost(Fate fate) const
{
    return std::count_if(m_under.begin(), m_under.end(), [fate](const auto& under) {
        return !under.second.hasArrived && under.second.fate == fate;
    });
}

std::string
ToraComparison::DelayAt(double share) const
{
    if (m_delays.empty())
    {
        return "";
    }
    std::ostringstream text;
    text << m_delays[std::min<std::size_t>(m_delays.size() * share, m_delays.size() - 1)];
    return text.str();
}

uint64_t
ToraComparison::CountOf(tora::Frame::Kind kind) const
{
    auto frames = m_frames.find(kind);
    return frames == m_frames.end() ? 0 : frames->second;
}

uint32_t
ToraComparison::CameBack() const
{
    uint32_t count = 0;
    for (auto node = m_nodes.Begin(); node != m_nodes.End(); node++)
    {
        Ptr<tora::RoutingProtocol> tora = (*node)->GetObject<tora::RoutingProtocol>();
        count += tora ? tora->GetCameBack() : 0;
    }
    return count;
}

void
ToraComparison::PrintMeans(std::ostream& os) const
{
    double received = m_delays.size();
    os << (m_setup.label.empty() ? m_setup.protocol : m_setup.label) << "," << m_setup.nodes << ","
       << m_setup.speed << "," << m_setup.flows << "," << m_setup.seed << "," << m_sequence << ","
       << m_reachable << "," << received << "," << received / m_sequence << "," << DelayAt(0.5)
       << "," << DelayAt(0.95) << "," << m_controlBytes << "," << m_controlPackets << ","
       << m_controlBytes / 1000.0 / (START + m_setup.seconds + REST) << ",";
    if (received > 0)
    {
        os << m_controlBytes / received << "," << m_controlPackets / received << ","
           << m_hops / received << ",";
    }
    else
    {
        os << ",,,";
    }
    if (m_leastHops > 0)
    {
        os << static_cast<double>(m_pathHops) / m_leastHops;
    }
}

void
ToraComparison::Print() const
{
    if (m_setup.hasHeader)
    {
        std::cout
            << "protocol,nodes,speed,flows,seed,sent,reachable,received,delivery,"
               "delay_median,delay_95,control_bytes,control_packets,control_rate,"
               "bytes_per_packet,packets_per_packet,hops,stretch,came_back,late,hello,data,ack,"
               "lost_radio,lost_arp,lost_no_route,lost_came_back,lost_late,lost_other,"
               "delivery_reachable,control_most\n";
    }
    PrintMeans(std::cout);
    std::cout << "," << CameBack() << "," << m_late << "," << CountOf(tora::Frame::HELLO) << ","
              << CountOf(tora::Frame::DATA) << "," << CountOf(tora::Frame::ACK);
    for (Fate fate :
         {Fate::RADIO, Fate::ARP, Fate::NO_ROUTE, Fate::CAME_BACK, Fate::LATE, Fate::NONE})
    {
        std::cout << "," << Lost(fate);
    }
    std::cout << ",";
    if (m_reachable > 0)
    {
        std::cout << static_cast<double>(m_reached) / m_reachable;
    }
    std::cout << "," << m_controlMost.GetMost() << std::endl;
}

} // namespace ns3
