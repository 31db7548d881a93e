// SPDX-FileCopyrightText: 2026 the Ginavoru authors
// SPDX-License-Identifier: GPL-2.0-only

/*
 * Four nodes on a line in two ranks of MPI: the first two in one, the last two in the other. The
 * first sends 100 packets to the last, four a second from 10 s on.
 *
 *   mpirun -np 2 tora-ranks
 *
 * A rank has all nodes, and runs TORA on its own alone. It knows the others by their addresses,
 * which the attributes Neighbours and Destinations name.
 */
#include "ns3/core-module.h"
#include "ns3/internet-module.h"
#include "ns3/mpi-interface.h"
#include "ns3/network-module.h"
#include "ns3/point-to-point-helper.h"
#include "ns3/tora-helper.h"

#include <iostream>

using namespace ns3;

namespace
{

constexpr uint32_t NODES = 4; ///< how many nodes
constexpr uint16_t PORT = 9;  ///< the UDP port of data packets

/**
 * \param place the place of a node on the line
 * \returns its address, the same on all of its links
 */
std::string
AddressOf(uint32_t place)
{
    return "10.1.1." + std::to_string(place + 1);
}

/**
 * Installs IP and TORA on a node.
 *
 * \param node the node
 * \param place its place on the line
 */
void
Install(Ptr<Node> node, uint32_t place)
{
    std::string neighbours;
    std::string destinations;
    for (uint32_t other = 0; other < NODES; other++)
    {
        destinations += AddressOf(other) + " ";
        bool isNeighbour = other + 1 == place || other == place + 1;
        neighbours += isNeighbour ? AddressOf(other) + " " : "";
    }
    ToraHelper tora;
    tora.Set("Neighbours", StringValue(neighbours));
    tora.Set("Destinations", StringValue(destinations));
    InternetStackHelper stack;
    stack.SetRoutingHelper(tora);
    stack.Install(node);
    Ptr<Ipv4> ipv4 = node->GetObject<Ipv4>();
    for (uint32_t i = 0; i + 1 < node->GetNDevices(); i++) // the last one is loopback
    {
        uint32_t interface = ipv4->AddInterface(node->GetDevice(i));
        ipv4->AddAddress(interface,
                         Ipv4InterfaceAddress(AddressOf(place).c_str(), "255.255.255.0"));
        ipv4->SetUp(interface);
    }
}

} // namespace

int
main(int argc, char* argv[])
{
    CommandLine cmd(__FILE__);
    cmd.Parse(argc, argv);
    GlobalValue::Bind("SimulatorImplementationType", StringValue("ns3::DistributedSimulatorImpl"));
    MpiInterface::Enable(&argc, &argv);
    uint32_t rank = MpiInterface::GetSystemId();
    if (MpiInterface::GetSize() != 2)
    {
        NS_FATAL_ERROR("there are two ranks: mpirun -np 2 tora-ranks");
    }

    NodeContainer nodes;
    for (uint32_t i = 0; i < NODES; i++)
    {
        nodes.Add(CreateObject<Node>(i / 2));
    }
    PointToPointHelper wire;
    wire.SetChannelAttribute("Delay", StringValue("2ms"));
    for (uint32_t i = 0; i + 1 < NODES; i++)
    {
        wire.Install(nodes.Get(i), nodes.Get(i + 1));
    }
    Install(nodes.Get(2 * rank), 2 * rank);
    Install(nodes.Get(2 * rank + 1), 2 * rank + 1);

    uint32_t received = 0;
    if (rank == 0)
    {
        Ptr<Socket> source = Socket::CreateSocket(nodes.Get(0), UdpSocketFactory::GetTypeId());
        Ipv4Address last(AddressOf(NODES - 1).c_str());
        source->Connect(InetSocketAddress(last, PORT));
        for (uint32_t i = 0; i < 100; i++)
        {
            Simulator::ScheduleWithContext(0, Seconds(10 + 0.25 * i), [source]() {
                source->Send(Create<Packet>(64));
            });
        }
    }
    else
    {
        Ptr<Socket> sink = Socket::CreateSocket(nodes.Get(3), UdpSocketFactory::GetTypeId());
        sink->Bind(InetSocketAddress(Ipv4Address::GetAny(), PORT));
        sink->SetRecvCallback(Callback<void, Ptr<Socket>>([&received](Ptr<Socket> socket) {
            while (socket->Recv())
            {
                received++;
            }
        }));
    }
    Simulator::Stop(Seconds(41));
    Simulator::Run();
    Simulator::Destroy();
    MpiInterface::Disable();
    if (rank == 1)
    {
        std::cout << "received " << received << " of 100" << std::endl;
    }
    return rank == 0 || received == 100 ? 0 : 1;
}
