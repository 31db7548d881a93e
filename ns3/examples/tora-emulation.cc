// SPDX-FileCopyrightText: 2026 the Ginavoru authors
// SPDX-License-Identifier: GPL-2.0-only

/*
 * One simulated node on a real interface, in real time: its packets go out over the interface, and
 * those that come in there are the node's. Two such programs find each other over a wire. It needs
 * root; examples/emulation.sh runs two of them in network namespaces, and
 * examples/emulation-node.sh two with a program `tora node` between them.
 *
 *   tora-emulation --device=veth0 --address=10.9.9.1 --others=10.9.9.2,10.9.9.3
 *       [--programs=10.9.9.3] [--to=10.9.9.2] [--seconds=20]
 */
#include "ns3/core-module.h"
#include "ns3/fd-net-device-module.h"
#include "ns3/internet-module.h"
#include "ns3/network-module.h"
#include "ns3/tora-helper.h"

#include <algorithm>
#include <arpa/inet.h>
#include <iostream>
#include <linux/if_packet.h>
#include <net/ethernet.h>
#include <net/if.h>
#include <sys/socket.h>

using namespace ns3;

namespace
{

/**
 * Opens a socket for all frames of an interface.
 *
 * \param name the name of the interface
 * \returns the file descriptor
 */
int
OpenInterface(const std::string& name)
{
    sockaddr_ll at{};
    at.sll_family = AF_PACKET;
    at.sll_protocol = htons(ETH_P_ALL);
    at.sll_ifindex = static_cast<int>(if_nametoindex(name.c_str()));
    int socket = ::socket(AF_PACKET, SOCK_RAW, htons(ETH_P_ALL));
    if (socket < 0 || at.sll_ifindex == 0 ||
        bind(socket, reinterpret_cast<sockaddr*>(&at), sizeof(at)) != 0)
    {
        NS_FATAL_ERROR("no raw socket for the interface '" << name << "'; it needs root");
    }
    return socket;
}

/**
 * Makes the node.
 *
 * \param device the name of the interface
 * \param address the address of the node
 * \param others the addresses of the nodes that it may meet
 * \param programs those of them that are programs `tora node`
 * \returns the node
 */
Ptr<Node>
MakeNode(const std::string& device,
         const std::string& address,
         const std::string& others,
         const std::string& programs)
{
    Ptr<Node> node = CreateObject<Node>();
    Ptr<FdNetDevice> wire = CreateObject<FdNetDevice>();
    // Each program would allocate the same hardware address, so it is made of that of the node.
    uint8_t mac[6] = {2, 0, 0, 0, 0, static_cast<uint8_t>(Ipv4Address(address.c_str()).Get())};
    Mac48Address own;
    own.CopyFrom(mac);
    wire->SetAddress(own);
    wire->SetEncapsulationMode(FdNetDevice::DIX);
    node->AddDevice(wire);
    wire->SetFileDescriptor(OpenInterface(device));
    ToraHelper tora;
    tora.Set("Neighbours", StringValue(others));
    tora.Set("UnicastNeighbours", StringValue(programs));
    tora.Set("Destinations", StringValue(address + " " + others));
    InternetStackHelper stack;
    stack.SetRoutingHelper(tora);
    stack.Install(node);
    Ptr<Ipv4> ipv4 = node->GetObject<Ipv4>();
    uint32_t interface = ipv4->AddInterface(wire);
    ipv4->AddAddress(interface, Ipv4InterfaceAddress(address.c_str(), "255.255.255.0"));
    ipv4->SetUp(interface);
    return node;
}

} // namespace

int
main(int argc, char* argv[])
{
    std::string device = "veth0";
    std::string address = "10.9.9.1";
    std::string others = "10.9.9.2";
    std::string programs;
    std::string to;
    double seconds = 20;
    CommandLine cmd(__FILE__);
    cmd.AddValue("device", "the interface", device);
    cmd.AddValue("address", "the address of the node", address);
    cmd.AddValue("others",
                 "the addresses of the nodes that it may meet, with commas between them",
                 others);
    cmd.AddValue("programs",
                 "those of them that are programs `tora node`, with commas between them",
                 programs);
    cmd.AddValue("to", "the node that packets are sent to, four a second from 5 s on", to);
    cmd.AddValue("seconds", "how long it runs", seconds);
    cmd.Parse(argc, argv);
    std::replace(others.begin(), others.end(), ',', ' ');
    std::replace(programs.begin(), programs.end(), ',', ' ');
    GlobalValue::Bind("SimulatorImplementationType", StringValue("ns3::RealtimeSimulatorImpl"));
    GlobalValue::Bind("ChecksumEnabled", BooleanValue(true));

    Ptr<Node> node = MakeNode(device, address, others, programs);
    uint32_t received = 0;
    Ptr<Socket> sink = Socket::CreateSocket(node, UdpSocketFactory::GetTypeId());
    sink->Bind(InetSocketAddress(Ipv4Address::GetAny(), 9));
    sink->SetRecvCallback(Callback<void, Ptr<Socket>>([&received](Ptr<Socket> socket) {
        while (socket->Recv())
        {
            received++;
        }
    }));
    Ptr<Socket> source = Socket::CreateSocket(node, UdpSocketFactory::GetTypeId());
    for (double at = 5; !to.empty() && at < seconds - 5; at += 0.25)
    {
        Simulator::ScheduleWithContext(node->GetId(), Seconds(at), [source, to]() {
            source->SendTo(Create<Packet>(64), 0, InetSocketAddress(Ipv4Address(to.c_str()), 9));
        });
    }
    auto out = Create<OutputStreamWrapper>(&std::cout);
    Ipv4RoutingHelper::PrintRoutingTableAllAt(Seconds(seconds - 1), out);
    Simulator::Stop(Seconds(seconds));
    Simulator::Run();
    Simulator::Destroy();
    std::cout << "received " << received << std::endl;
    return 0;
}
