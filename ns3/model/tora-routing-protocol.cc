// SPDX-FileCopyrightText: 2026 the Ginavoru authors
// SPDX-License-Identifier: GPL-2.0-only

#include "tora-routing-protocol.h"

#include "ns3/ipv4-l3-protocol.h"
#include "ns3/ipv4-route.h"
#include "ns3/log.h"
#include "ns3/simulator.h"
#include "ns3/wifi-mac.h"
#include "ns3/wifi-mpdu.h"
#include "ns3/wifi-net-device.h"
#include "ns3/wifi-phy.h"

#include <algorithm>
#include <iomanip>
#include <sstream>
#include <utility>

namespace ns3::tora
{

NS_LOG_COMPONENT_DEFINE("ToraRoutingProtocol");

namespace
{

/// \returns the addresses in a text, with blanks between them, as numbers
std::vector<uint32_t>
NumbersIn(const std::string& names)
{
    std::vector<uint32_t> numbers;
    std::istringstream words(names);
    std::string word;
    while (words >> word)
    {
        numbers.push_back(Ipv4Address(word.c_str()).Get());
    }
    return numbers;
}

} // namespace

RoutingProtocol::RoutingProtocol()
    : m_random(CreateObject<UniformRandomVariable>())
{
}

void
RoutingProtocol::DoInitialize()
{
    NS_LOG_FUNCTION(this);
    Time now = Simulator::Now();
    m_lastBroadcast = now - m_random->GetValue(0, 1) * m_beaconInterval;
    Time next = m_tick * (GetTick() + 1);
    m_tickEvent = Simulator::Schedule(next - now, &RoutingProtocol::OnTick, this);
    Start();
    Ipv4RoutingProtocol::DoInitialize();
}

void
RoutingProtocol::DoDispose()
{
    NS_LOG_FUNCTION(this);
    m_tickEvent.Cancel();
    m_router.Free();
    if (m_ipv4)
    {
        Ptr<Node> node = m_ipv4->GetObject<Node>();
        node->UnregisterProtocolHandler(MakeCallback(&RoutingProtocol::NoteSender, this));
    }
    m_look.Nullify();
    while (!m_interfaces.GetSockets().empty())
    {
        m_interfaces.Close(m_interfaces.GetSockets().begin()->first);
    }
    m_interfaces = Interfaces();
    m_queue = {};
    m_ipv4 = nullptr;
    Ipv4RoutingProtocol::DoDispose();
}

int64_t
RoutingProtocol::AssignStreams(int64_t stream)
{
    NS_LOG_FUNCTION(this << stream);
    m_random->SetStream(stream);
    return 1;
}

// ---- the router

void
RoutingProtocol::Start()
{
    bool isInitialized = m_tickEvent.IsRunning();
    if (!isInitialized || m_router.IsMade() || m_interfaces.GetSockets().empty())
    {
        return;
    }
    m_number = m_interfaces.GetNumber();
    Surroundings around = Look();
    NS_LOG_LOGIC("starts with " << around.neighbours.size() << " possible neighbours and "
                                << around.destinations.size() << " destinations");
    m_peers = {around.neighbours.begin(), around.neighbours.end()};
    std::vector<uint32_t> unicast = NumbersIn(m_unicastNames);
    m_unicast = {unicast.begin(), unicast.end()};
    m_numbers.clear();
    std::set<uint32_t> destinations(around.destinations.begin(), around.destinations.end());
    for (const auto& [address, number] : around.numbers)
    {
        if (destinations.count(number) > 0)
        {
            m_numbers[address] = number;
        }
    }
    m_router.Make({m_number,
                   around.neighbours,
                   around.destinations,
                   m_erasure,
                   m_helloTicks,
                   m_silentTicks,
                   m_retryTicks,
                   m_tries,
                   m_nextLife});
}

Surroundings
RoutingProtocol::Look() const
{
    Surroundings around;
    if (!m_look.IsNull())
    {
        around = m_look(m_ipv4->GetObject<Node>());
    }
    if (!m_neighbourNames.empty())
    {
        around.neighbours = NumbersIn(m_neighbourNames);
    }
    if (!m_destinationNames.empty())
    {
        around.destinations = NumbersIn(m_destinationNames);
    }
    for (uint32_t destination : around.destinations)
    {
        around.numbers.emplace(destination, destination);
    }
    auto& others = around.neighbours;
    others.erase(std::remove(others.begin(), others.end(), m_number), others.end());
    return around;
}

void
RoutingProtocol::Stop()
{
    if (!m_router.IsMade())
    {
        return;
    }
    NS_LOG_LOGIC("stops");
    m_nextLife = m_router.GetNextLife();
    m_router.Free();
    m_number = 0;
    m_queue = {};
    m_due.clear();
    m_arrived.clear();
    m_hellos.clear();
    m_neighbours.clear();
    m_history = {};
    m_asked.clear();
    m_isUrgent = false;
    for (const auto& [destination, hop] : std::exchange(m_hops, {}))
    {
        if (hop != 0)
        {
            m_routeTrace(Ipv4Address(destination), Ipv4Address(hop), Ipv4Address::GetAny());
        }
    }
}

void
RoutingProtocol::Restart()
{
    NS_LOG_FUNCTION(this);
    Stop();
    Start();
}

uint64_t
RoutingProtocol::GetTick() const
{
    return Simulator::Now().GetTimeStep() / m_tick.GetTimeStep();
}

// ---- what others ask

uint32_t
RoutingProtocol::GetNodeNumber() const
{
    return m_ipv4->GetObject<Node>()->GetId();
}

Ipv4Address
RoutingProtocol::GetNextHop(Ipv4Address destination) const
{
    Ptr<Ipv4Route> route = RouteTo(destination);
    return route ? route->GetGateway() : Ipv4Address::GetAny();
}

std::vector<Ipv4Address>
RoutingProtocol::GetHeard() const
{
    std::vector<Ipv4Address> heard;
    for (const auto& neighbour : m_neighbours)
    {
        heard.push_back(neighbour.second.address);
    }
    return heard;
}

void
RoutingProtocol::PrintRoutingTable(Ptr<OutputStreamWrapper> stream, Time::Unit unit) const
{
    std::ostream& os = *stream->GetStream();
    std::ios oldState(nullptr);
    oldState.copyfmt(os);
    os << std::left << "Node: " << GetNodeNumber() << ", Time: " << Simulator::Now().As(unit)
       << ", Local time: " << m_ipv4->GetObject<Node>()->GetLocalTime().As(unit)
       << ", TORA Routing table" << std::endl;
    os << std::setw(16) << "Destination" << std::setw(16) << "Gateway"
       << "Interface" << std::endl;
    for (const auto& hop : m_hops)
    {
        Ipv4Address destination(hop.first);
        if (Ptr<Ipv4Route> route = RouteTo(destination))
        {
            std::ostringstream to;
            std::ostringstream gateway;
            to << destination;
            gateway << route->GetGateway();
            os << std::setw(16) << to.str() << std::setw(16) << gateway.str()
               << m_ipv4->GetInterfaceForDevice(route->GetOutputDevice()) << std::endl;
        }
    }
    os << std::endl;
    os.copyfmt(oldState);
}

// ---- interfaces

void
RoutingProtocol::SetIpv4(Ptr<Ipv4> ipv4)
{
    NS_LOG_FUNCTION(this << ipv4);
    NS_ASSERT_MSG(ipv4 && !m_ipv4, "IP is set once");
    m_ipv4 = ipv4;
    m_interfaces.SetIpv4(ipv4);
    // Handlers are called in the order of their registration, so this one is before those that IP
    // registers for each interface that is added from now on.
    m_ipv4->GetObject<Node>()->RegisterProtocolHandler(
        MakeCallback(&RoutingProtocol::NoteSender, this),
        Ipv4L3Protocol::PROT_NUMBER,
        nullptr);
    for (uint32_t i = 1; i < m_ipv4->GetNInterfaces(); i++)
    {
        NotifyInterfaceUp(i);
    }
}

void
RoutingProtocol::NotifyInterfaceUp(uint32_t interface)
{
    NS_LOG_FUNCTION(this << interface);
    if (interface > 0 && m_ipv4->IsUp(interface) && m_ipv4->GetNAddresses(interface) > 0 &&
        !m_interfaces.IsOpen(interface))
    {
        m_interfaces.Open(interface, PORT, MakeCallback(&RoutingProtocol::Receive, this));
        Watch(interface, true);
        Start();
    }
}

void
RoutingProtocol::NotifyInterfaceDown(uint32_t interface)
{
    NS_LOG_FUNCTION(this << interface);
    if (!m_interfaces.IsOpen(interface))
    {
        return;
    }
    Watch(interface, false);
    m_interfaces.Close(interface);
    m_unsent.clear();
    if (m_interfaces.GetSockets().empty())
    {
        Stop();
        return;
    }
    for (auto& [number, neighbour] : m_neighbours)
    {
        neighbour.heard = neighbour.heardOn == interface ? Time::Min() : neighbour.heard;
    }
    ExpireNeighbours();
}

void
RoutingProtocol::NotifyAddAddress(uint32_t interface, Ipv4InterfaceAddress)
{
    NotifyInterfaceUp(interface);
}

void
RoutingProtocol::NotifyRemoveAddress(uint32_t interface, Ipv4InterfaceAddress)
{
    if (m_ipv4->GetNAddresses(interface) == 0)
    {
        NotifyInterfaceDown(interface);
    }
}

void
RoutingProtocol::Watch(uint32_t interface, bool isWatched)
{
    auto wifi = DynamicCast<WifiNetDevice>(m_ipv4->GetNetDevice(interface));
    if (!wifi || !wifi->GetMac() || !wifi->GetPhy())
    {
        return;
    }
    auto connect = isWatched ? &ObjectBase::TraceConnectWithoutContext
                             : &ObjectBase::TraceDisconnectWithoutContext;
    auto dropped = MakeCallback(&RoutingProtocol::OnDroppedMpdu, this);
    auto begin = MakeCallback(&RoutingProtocol::OnTxBegin, this);
    (PeekPointer(wifi->GetMac())->*connect)("DroppedMpdu", dropped);
    (PeekPointer(wifi->GetPhy())->*connect)("PhyTxBegin", begin);
    m_radios.erase(interface);
    if (isWatched)
    {
        m_radios.insert(interface);
    }
}

} // namespace ns3::tora
