// SPDX-FileCopyrightText: 2026 the Ginavoru authors
// SPDX-License-Identifier: GPL-2.0-only

/*
 * Three fixed nodes on a line, each in range of the next alone. The first sends 100 packets to the
 * third, four a second from 10 s on; then the routing tables are printed. README.md tells what
 * comes out.
 *
 *   tora-line [--pcap=PREFIX]
 */
#include "ns3/core-module.h"
#include "ns3/internet-module.h"
#include "ns3/mobility-module.h"
#include "ns3/network-module.h"
#include "ns3/tora-helper.h"
#include "ns3/wifi-module.h"
#include "ns3/yans-wifi-helper.h"

#include <iostream>

using namespace ns3;

namespace
{

/**
 * Puts nodes on a line, 200 m apart, and gives them radios of 250 m.
 *
 * \param nodes the nodes
 * \param phy the helper of their radios, which takes the channel
 * \returns the radios
 */
NetDeviceContainer
MakeRadios(const NodeContainer& nodes, YansWifiPhyHelper& phy)
{
    MobilityHelper mobility;
    mobility.SetPositionAllocator("ns3::GridPositionAllocator", "DeltaX", DoubleValue(200));
    mobility.SetMobilityModel("ns3::ConstantPositionMobilityModel");
    mobility.Install(nodes);

    YansWifiChannelHelper channel;
    channel.SetPropagationDelay("ns3::ConstantSpeedPropagationDelayModel");
    channel.AddPropagationLoss("ns3::RangePropagationLossModel", "MaxRange", DoubleValue(250));
    phy.SetChannel(channel.Create());
    WifiMacHelper mac;
    mac.SetType("ns3::AdhocWifiMac");
    WifiHelper wifi;
    wifi.SetStandard(WIFI_STANDARD_80211b);
    return wifi.Install(phy, mac, nodes);
}

/**
 * Installs IP and TORA.
 *
 * \param nodes the nodes
 * \param devices their radios
 * \returns their interfaces
 */
Ipv4InterfaceContainer
MakeRouting(const NodeContainer& nodes, const NetDeviceContainer& devices)
{
    ToraHelper tora;
    InternetStackHelper stack;
    stack.SetRoutingHelper(tora);
    stack.Install(nodes);
    Ipv4AddressHelper addresses("10.1.1.0", "255.255.255.0");
    return addresses.Assign(devices);
}

} // namespace

int
main(int argc, char* argv[])
{
    std::string pcap;
    CommandLine cmd(__FILE__);
    cmd.AddValue("pcap", "the beginning of the names of pcap files", pcap);
    cmd.Parse(argc, argv);

    NodeContainer nodes(3);
    YansWifiPhyHelper phy;
    NetDeviceContainer devices = MakeRadios(nodes, phy);
    Ipv4InterfaceContainer interfaces = MakeRouting(nodes, devices);

    uint32_t received = 0;
    Ptr<Socket> sink = Socket::CreateSocket(nodes.Get(2), UdpSocketFactory::GetTypeId());
    sink->Bind(InetSocketAddress(Ipv4Address::GetAny(), 9));
    sink->SetRecvCallback(Callback<void, Ptr<Socket>>([&received](Ptr<Socket> socket) {
        while (socket->Recv())
        {
            received++;
        }
    }));
    Ptr<Socket> source = Socket::CreateSocket(nodes.Get(0), UdpSocketFactory::GetTypeId());
    source->Connect(InetSocketAddress(interfaces.GetAddress(2), 9));
    for (uint32_t i = 0; i < 100; i++)
    {
        Simulator::Schedule(Seconds(10 + 0.25 * i),
                            [source]() { source->Send(Create<Packet>(64)); });
    }
    if (!pcap.empty())
    {
        phy.EnablePcapAll(pcap);
    }
    auto out = Create<OutputStreamWrapper>(&std::cout);
    Ipv4RoutingHelper::PrintRoutingTableAllAt(Seconds(40), out);

    Simulator::Stop(Seconds(41));
    Simulator::Run();
    Simulator::Destroy();
    std::cout << "received " << received << " of 100" << std::endl;
    return received == 100 ? 0 : 1;
}
