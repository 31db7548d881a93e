// SPDX-FileCopyrightText: 2026 the Ginavoru authors
// SPDX-License-Identifier: GPL-2.0-only

#ifndef TORA_NET_H
#define TORA_NET_H

#include "ns3/boolean.h"
#include "ns3/double.h"
#include "ns3/inet-socket-address.h"
#include "ns3/internet-stack-helper.h"
#include "ns3/ipv4-address-helper.h"
#include "ns3/ipv4-l3-protocol.h"
#include "ns3/mobility-helper.h"
#include "ns3/mobility-model.h"
#include "ns3/node-container.h"
#include "ns3/rng-seed-manager.h"
#include "ns3/simulator.h"
#include "ns3/tora-helper.h"
#include "ns3/tora-routing-protocol.h"
#include "ns3/udp-socket-factory.h"
#include "ns3/wifi-helper.h"
#include "ns3/wifi-mac-helper.h"
#include "ns3/yans-wifi-channel.h"
#include "ns3/yans-wifi-helper.h"

#include <map>
#include <string>
#include <vector>

namespace ns3
{

/**
 * \ingroup tora
 * \brief Nodes with radios of 250 m, fixed where they are put.
 */
class ToraNet
{
  public:
    /**
     * \param xs where the nodes stand, in metres along a line
     * \param tora the routing
     * \param channel the channel of another net, or nothing for one of its own
     * \param base the first address
     */
    ToraNet(const std::vector<double>& xs,
            ToraHelper tora,
            Ptr<YansWifiChannel> channel = nullptr,
            const char* base = "10.1.1.0")
        : m_channel(channel)
    {
        RngSeedManager::SetSeed(1);
        RngSeedManager::SetRun(1);
        m_nodes.Create(xs.size());
        MobilityHelper mobility;
        mobility.SetMobilityModel("ns3::ConstantPositionMobilityModel");
        mobility.Install(m_nodes);
        for (uint32_t i = 0; i < xs.size(); i++)
        {
            Move(i, xs[i]);
        }
        if (!m_channel)
        {
            m_channel = MakeChannel();
        }
        NetDeviceContainer devices = AddRadios(m_nodes, m_channel);
        InternetStackHelper stack;
        stack.SetRoutingHelper(tora);
        stack.Install(m_nodes);
        Ipv4AddressHelper addresses(base, "255.255.255.0");
        m_interfaces = addresses.Assign(devices);
        int64_t stream = 100 + 1000 * m_nodes.Get(0)->GetId();
        stream += WifiHelper().AssignStreams(devices, stream);
        stream += tora.AssignStreams(m_nodes, stream);
        stack.AssignStreams(m_nodes, stream);
    }

    ~ToraNet()
    {
        Simulator::Destroy();
    }

    /**
     * \returns a channel on which radios reach 250 m
     */
    static Ptr<YansWifiChannel> MakeChannel()
    {
        YansWifiChannelHelper channel;
        channel.SetPropagationDelay("ns3::ConstantSpeedPropagationDelayModel");
        channel.AddPropagationLoss("ns3::RangePropagationLossModel", "MaxRange", DoubleValue(250));
        return channel.Create();
    }

    /**
     * Gives nodes radios.
     *
     * \param nodes the nodes
     * \param channel their channel
     * \returns their radios
     */
    NetDeviceContainer AddRadios(const NodeContainer& nodes, Ptr<YansWifiChannel> channel)
    {
        m_phy.SetChannel(channel);
        WifiMacHelper mac;
        mac.SetType("ns3::AdhocWifiMac");
        WifiHelper wifi;
        wifi.SetStandard(WIFI_STANDARD_80211b);
        return wifi.Install(m_phy, mac, nodes);
    }

    // Delete copy constructor and assignment operator: sockets call back to the object
    ToraNet(const ToraNet&) = delete;
    ToraNet& operator=(const ToraNet&) = delete;

    /**
     * Puts a node elsewhere.
     *
     * \param node its place
     * \param x where it stands
     */
    void Move(uint32_t node, double x)
    {
        m_nodes.Get(node)->GetObject<MobilityModel>()->SetPosition(Vector(x, 0, 0));
    }

    /**
     * \param node its place
     * \returns its address
     */
    Ipv4Address AddressOf(uint32_t node) const
    {
        return m_interfaces.GetAddress(node);
    }

    /**
     * \param node its place
     * \returns its routing
     */
    Ptr<tora::RoutingProtocol> RoutingOf(uint32_t node) const
    {
        return m_nodes.Get(node)->GetObject<tora::RoutingProtocol>();
    }

    /**
     * A node sends a packet of IPv4 to its neighbour, whatever its routing says.
     *
     * \param from its place
     * \param to the place of the neighbour
     * \param source the source of the packet
     * \param destination the destination of the packet
     * \param number the number of the packet
     */
    void Inject(uint32_t from,
                uint32_t to,
                Ipv4Address source,
                Ipv4Address destination,
                uint16_t number) const
    {
        Ptr<Packet> packet = Create<Packet>(20);
        Ipv4Header header;
        header.SetSource(source);
        header.SetDestination(destination);
        header.SetIdentification(number);
        header.SetTtl(64);
        header.SetProtocol(253); // for experiments: no node takes it
        header.SetPayloadSize(packet->GetSize());
        packet->AddHeader(header);
        m_nodes.Get(from)->GetDevice(0)->Send(packet,
                                              m_nodes.Get(to)->GetDevice(0)->GetAddress(),
                                              Ipv4L3Protocol::PROT_NUMBER);
    }

    /**
     * Counts the packets that a node forwards.
     *
     * \param node its place
     * \param count how many
     */
    void CountForwarded(uint32_t node, uint32_t& count) const
    {
        m_nodes.Get(node)->GetObject<Ipv4L3Protocol>()->TraceConnectWithoutContext(
            "UnicastForward",
            Callback<void, const Ipv4Header&, Ptr<const Packet>, uint32_t>(
                [&count](const Ipv4Header&, Ptr<const Packet>, uint32_t) { count++; }));
    }

    /**
     * Makes a flow of data packets, four a second.
     *
     * \param from the place of its source
     * \param to the place of its sink
     * \param start when it starts, in seconds
     * \param count how many packets it has
     */
    void Flow(uint32_t from, uint32_t to, double start, uint32_t count)
    {
        if (m_sinks.count(to) == 0)
        {
            m_sinks[to] = Socket::CreateSocket(m_nodes.Get(to), UdpSocketFactory::GetTypeId());
            m_sinks[to]->SetIpRecvTtl(true);
            m_sinks[to]->Bind(InetSocketAddress(Ipv4Address::GetAny(), 9));
            m_sinks[to]->SetRecvCallback(MakeCallback(&ToraNet::Receive, this));
        }
        m_source = Socket::CreateSocket(m_nodes.Get(from), UdpSocketFactory::GetTypeId());
        m_source->SetAttribute("IcmpCallback",
                               CallbackValue(MakeCallback(&ToraNet::ReceiveIcmp, this)));
        m_source->Connect(InetSocketAddress(AddressOf(to), 9));
        for (uint32_t i = 0; i < count; i++)
        {
            Simulator::Schedule(Seconds(start + 0.25 * i), &ToraNet::Send, this, m_source);
        }
    }

    /**
     * Runs the simulation.
     *
     * \param until until when, in seconds
     */
    void Run(double until)
    {
        Simulator::Stop(Seconds(until) - Simulator::Now());
        Simulator::Run();
    }

    uint32_t m_received{0};    //!< how many data packets arrived
    uint32_t m_leastTtl{255};  //!< the least TTL of one that arrived
    uint32_t m_unreachable{0}; //!< how many ICMP messages "host unreachable" sources had
    uint32_t m_unsent{0};      //!< how many packets the socket refused
    NodeContainer m_nodes;     //!< the nodes
    YansWifiPhyHelper m_phy;   //!< the helper of their radios

  private:
    /**
     * Sends a data packet.
     *
     * \param source the socket
     */
    void Send(Ptr<Socket> source)
    {
        m_unsent += source->Send(Create<Packet>(64)) < 0;
    }

    /**
     * Data packets came.
     *
     * \param socket the socket
     */
    void Receive(Ptr<Socket> socket)
    {
        while (Ptr<Packet> packet = socket->Recv())
        {
            SocketIpTtlTag tag;
            packet->PeekPacketTag(tag);
            m_leastTtl = std::min<uint32_t>(m_leastTtl, tag.GetTtl());
            m_received++;
        }
    }

    /**
     * An ICMP message came for a source.
     *
     * \param type its type
     * \param code its code
     */
    void ReceiveIcmp(Ipv4Address, uint8_t, uint8_t type, uint8_t code, uint32_t)
    {
        m_unreachable += type == 3 && code == 1;
    }

    Ptr<YansWifiChannel> m_channel;          //!< their channel
    Ipv4InterfaceContainer m_interfaces;     //!< their interfaces
    std::map<uint32_t, Ptr<Socket>> m_sinks; //!< sinks by place
    Ptr<Socket> m_source;                    //!< the source of the last flow
};

} // namespace ns3

#endif /* TORA_NET_H */
