// SPDX-FileCopyrightText: 2026 the Ginavoru authors
// SPDX-License-Identifier: GPL-2.0-only

#include "tora-comparison.h"

#include "ns3/core-module.h"
#include "ns3/mobility-module.h"
#include "ns3/tora-helper.h"
#include "ns3/wifi-module.h"
#include "ns3/yans-wifi-helper.h"

#include <algorithm>

namespace ns3
{

namespace
{

/// The UDP port of data packets.
constexpr uint16_t DATA_PORT = 9;

// Streams of ns-3's generator, so that motion, flows and radios are the same for each protocol
constexpr int64_t MOTION_STREAM = 1000; ///< positions and motion
constexpr int64_t FLOW_STREAM = 5000;   ///< sources, sinks and starts of flows
constexpr int64_t RADIO_STREAM = 10000; ///< radios

} // namespace

ToraComparison::ToraComparison(const ToraComparisonSetup& setup)
    : m_setup(setup)
{
    RngSeedManager::SetSeed(20261125);
    RngSeedManager::SetRun(setup.seed);
    MakeNodes();
    MakeRadios();
    MakeRouting();
    WatchPackets();
    MakeFlows();
}

void
ToraComparison::MakeNodes()
{
    m_nodes.Create(m_setup.nodes);
    auto places = [](double side) {
        return StringValue("ns3::UniformRandomVariable[Min=0|Max=" + std::to_string(side) + "]");
    };
    ObjectFactory factory("ns3::RandomRectanglePositionAllocator");
    factory.Set("X", places(m_setup.side));
    factory.Set("Y", places(m_setup.height > 0 ? m_setup.height : m_setup.side));
    Ptr<PositionAllocator> positions = factory.Create<PositionAllocator>();
    MobilityHelper mobility;
    mobility.SetPositionAllocator(positions);
    if (m_setup.speed > 0)
    {
        std::ostringstream speed;
        speed << "ns3::UniformRandomVariable[Min=" << std::min(1.0, m_setup.speed)
              << "|Max=" << m_setup.speed << "]";
        mobility.SetMobilityModel("ns3::RandomWaypointMobilityModel",
                                  "Speed",
                                  StringValue(speed.str()),
                                  "Pause",
                                  StringValue("ns3::ConstantRandomVariable[Constant=0]"),
                                  "PositionAllocator",
                                  PointerValue(positions));
    }
    else
    {
        mobility.SetMobilityModel("ns3::ConstantPositionMobilityModel");
    }
    positions->AssignStreams(MOTION_STREAM);
    mobility.Install(m_nodes);
    mobility.AssignStreams(m_nodes, MOTION_STREAM + 10);
}

void
ToraComparison::MakeRadios()
{
    YansWifiChannelHelper channel;
    channel.SetPropagationDelay("ns3::ConstantSpeedPropagationDelayModel");
    channel.AddPropagationLoss("ns3::RangePropagationLossModel",
                               "MaxRange",
                               DoubleValue(m_setup.range));
    YansWifiPhyHelper phy;
    phy.SetChannel(channel.Create());
    WifiMacHelper mac;
    mac.SetType("ns3::AdhocWifiMac");
    WifiHelper wifi;
    wifi.SetStandard(WIFI_STANDARD_80211b);
    wifi.SetRemoteStationManager("ns3::ConstantRateWifiManager",
                                 "DataMode",
                                 StringValue("DsssRate11Mbps"),
                                 "ControlMode",
                                 StringValue("DsssRate1Mbps"));
    m_devices = wifi.Install(phy, mac, m_nodes);
    wifi.AssignStreams(m_devices, RADIO_STREAM);
}

void
ToraComparison::MakeFlows()
{
    auto random = CreateObject<UniformRandomVariable>();
    random->SetStream(FLOW_STREAM);
    for (uint32_t i = 0; i < m_nodes.GetN(); i++)
    {
        Ptr<Socket> sink = Socket::CreateSocket(m_nodes.Get(i), UdpSocketFactory::GetTypeId());
        sink->Bind(InetSocketAddress(Ipv4Address::GetAny(), DATA_PORT));
        sink->SetRecvCallback(MakeCallback(&ToraComparison::Receive, this));
        m_sockets.push_back(sink);
    }
    for (uint32_t i = 0; i < m_setup.flows; i++)
    {
        uint32_t from = random->GetInteger(0, m_setup.nodes - 1);
        uint32_t to = (from + random->GetInteger(1, m_setup.nodes - 1)) % m_setup.nodes;
        if (auto* helper = dynamic_cast<ToraHelper*>(m_routing.get());
            helper && m_setup.nodes > tora::Router::MOST_DESTINATIONS)
        {
            helper->AddDestinations(NodeContainer(m_nodes.Get(to)));
        }
        Ptr<Socket> source = Socket::CreateSocket(m_nodes.Get(from), UdpSocketFactory::GetTypeId());
        source->Connect(InetSocketAddress(m_interfaces.GetAddress(to), DATA_PORT));
        m_sockets.push_back(source);
        double first = START + random->GetValue(0, 1);
        for (double at = first; at < START + m_setup.seconds; at += 1 / m_setup.rate)
        {
            Simulator::ScheduleWithContext(m_nodes.Get(from)->GetId(),
                                           Seconds(at),
                                           &ToraComparison::Send,
                                           this,
                                           source,
                                           to);
        }
    }
}

void
ToraComparison::Run()
{
    Simulator::Stop(Seconds(START + m_setup.seconds + REST));
    Simulator::Run();
    std::sort(m_delays.begin(), m_delays.end());
}

} // namespace ns3
