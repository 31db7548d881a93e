// SPDX-FileCopyrightText: 2026 the Ginavoru authors
// SPDX-License-Identifier: GPL-2.0-only

/**
 * \file
 * \ingroup tora
 * The suite "tora-network": several networks and interfaces, many neighbours, bytes that are none
 * of TORA, and runs that are made twice.
 */
#include "tora-net.h"

#include "ns3/simple-channel.h"
#include "ns3/simple-net-device-helper.h"
#include "ns3/simple-net-device.h"
#include "ns3/string.h"
#include "ns3/test.h"

#include <csignal>
#include <fstream>
#include <iterator>
#include <sys/wait.h>
#include <unistd.h>

using namespace ns3;

/**
 * \ingroup tora
 * \brief The same seed makes the same bytes, and another makes others.
 */
class ToraSeedTestCase : public TestCase
{
  public:
    ToraSeedTestCase()
        : TestCase("The same streams make the same capture")
    {
    }

  private:
    /**
     * \param name the beginning of the name of a capture
     * \param run the run of ns-3's generator
     * \returns the bytes of what the second node captures
     */
    std::string Try(const std::string& name, uint64_t run)
    {
        std::string prefix = CreateTempDirFilename(name);
        {
            ToraNet net({0, 100, 200, 300}, ToraHelper());
            RngSeedManager::SetRun(run);
            for (uint32_t i = 0; i < 4; i++)
            {
                net.RoutingOf(i)->AssignStreams(1000 * run + i);
            }
            net.m_phy.EnablePcap(prefix, net.m_nodes.Get(1)->GetDevice(0), false, true);
            net.Flow(0, 3, 5, 20);
            net.Run(15);
        }
        std::ifstream file(prefix, std::ios::binary);
        return {std::istreambuf_iterator<char>(file), std::istreambuf_iterator<char>()};
    }

    void DoRun() override
    {
        std::string first = Try("first.pcap", 1);
        NS_TEST_EXPECT_MSG_GT(first.size(), 4000, "packets");
        NS_TEST_EXPECT_MSG_EQ((first == Try("second.pcap", 1)), true, "the same run");
        NS_TEST_EXPECT_MSG_EQ((first == Try("third.pcap", 2)), false, "another run");
    }
};

/**
 * \ingroup tora
 * \brief Two networks on one channel.
 */
class ToraTwoNetworksTestCase : public TestCase
{
  public:
    ToraTwoNetworksTestCase()
        : TestCase("Two networks on one channel know nothing of each other")
    {
    }

  private:
    void DoRun() override
    {
        Ptr<YansWifiChannel> channel = ToraNet::MakeChannel();
        ToraNet one({0, 200, 400}, ToraHelper(), channel, "10.1.1.0");
        ToraNet two({10, 210, 410}, ToraHelper(), channel, "10.2.2.0");
        one.Flow(0, 2, 5, 20);
        two.Flow(2, 0, 5, 20);
        one.Run(20);
        NS_TEST_EXPECT_MSG_EQ(one.m_received, 20, "packets of the one");
        NS_TEST_EXPECT_MSG_EQ(two.m_received, 20, "packets of the other");
        NS_TEST_EXPECT_MSG_EQ(one.m_leastTtl, 63, "two hops");
        NS_TEST_EXPECT_MSG_EQ(two.m_leastTtl, 63, "two hops");
        std::vector<Ipv4Address> ends{one.AddressOf(0), one.AddressOf(2)};
        NS_TEST_EXPECT_MSG_EQ((one.RoutingOf(1)->GetHeard() == ends), true, "its own neighbours");
        NS_TEST_EXPECT_MSG_EQ(one.RoutingOf(1)->GetMalformed(), 0, "the others' are well formed");
        NS_TEST_EXPECT_MSG_EQ(one.RoutingOf(0)->GetNextHop(two.AddressOf(0)),
                              Ipv4Address::GetAny(),
                              "no route to the other");
    }
};

/**
 * \ingroup tora
 * \brief Nodes with two radios.
 */
class ToraTwoInterfacesTestCase : public TestCase
{
  public:
    ToraTwoInterfacesTestCase()
        : TestCase("A neighbour is reached over the interface on which it is heard")
    {
    }

  private:
    /**
     * Gives nodes second radios on another channel.
     *
     * \param net the nodes
     * \param places the places of those that take one
     */
    void AddSecond(ToraNet& net, const std::vector<uint32_t>& places)
    {
        NodeContainer nodes;
        for (uint32_t place : places)
        {
            nodes.Add(net.m_nodes.Get(place));
        }
        Ipv4AddressHelper addresses("10.7.7.0", "255.255.255.0");
        addresses.Assign(net.AddRadios(nodes, ToraNet::MakeChannel()));
    }

    /// A node joins two channels: packets go from the one to the other.
    void Join()
    {
        ToraNet net({0, 200, 5000, 400}, ToraHelper());
        AddSecond(net, {1, 3});
        net.m_nodes.Get(3)->GetObject<Ipv4>()->SetDown(1);
        net.Flow(0, 3, 5, 20);
        net.Run(20);
        NS_TEST_EXPECT_MSG_EQ(net.m_received, 20, "packets over both channels");
        NS_TEST_EXPECT_MSG_EQ(net.RoutingOf(1)->GetNextHop(net.AddressOf(3)),
                              Ipv4Address("10.7.7.2"),
                              "the next hop is on the second channel");
    }

    /// One of two channels goes.
    void Change()
    {
        ToraNet net({0, 200}, ToraHelper());
        AddSecond(net, {0, 1});
        net.Flow(0, 1, 5, 20);
        net.Run(12);
        NS_TEST_EXPECT_MSG_EQ(net.m_received, 20, "packets over one of two channels");
        net.m_nodes.Get(1)->GetObject<Ipv4>()->SetDown(1);
        net.Run(16);
        net.Flow(0, 1, 0.1, 20);
        net.Run(25);
        NS_TEST_EXPECT_MSG_EQ(net.m_received, 40, "packets over the one that is left");
        NS_TEST_EXPECT_MSG_EQ(net.RoutingOf(0)->GetNextHop(net.AddressOf(1)),
                              Ipv4Address("10.7.7.2"),
                              "the neighbour's address there");
    }

    void DoRun() override
    {
        Join();
        Change();
    }
};

/**
 * \ingroup tora
 * \brief Bytes that are none of TORA.
 */
class ToraGarbageTestCase : public TestCase
{
  public:
    ToraGarbageTestCase()
        : TestCase("Bytes that spell nothing are counted and dropped")
    {
    }

  private:
    /**
     * Broadcasts bytes.
     *
     * \param socket the socket
     * \param bytes the bytes
     */
    static void Send(Ptr<Socket> socket, std::vector<uint8_t> bytes)
    {
        socket->Send(Create<Packet>(bytes.data(), bytes.size()));
    }

    void DoRun() override
    {
        ToraNet net({0, 200, 400}, ToraHelper());
        Ptr<Socket> socket =
            Socket::CreateSocket(net.m_nodes.Get(0), UdpSocketFactory::GetTypeId());
        socket->SetAllowBroadcast(true);
        socket->Connect(InetSocketAddress(Ipv4Address("10.1.1.255"), tora::RoutingProtocol::PORT));
        auto random = CreateObject<UniformRandomVariable>();
        random->SetStream(7);
        double at = 5;
        auto put = [&](const std::vector<uint8_t>& bytes) {
            Simulator::Schedule(Seconds(at += 0.05), &ToraGarbageTestCase::Send, socket, bytes);
        };
        for (uint32_t i = 0; i < 200; i++)
        {
            std::vector<uint8_t> bytes(random->GetInteger(1, 600));
            for (auto& byte : bytes)
            {
                byte = random->GetInteger(0, 255);
            }
            bytes[0] = i % 2; // half of them begin as a packet does
            put(bytes);
        }
        // Frames from the first node to the second that are none: kinds, versions, numbers,
        // lengths.
        const std::vector<uint8_t> head{1, 2, 0, 1, 10, 1, 1, 1};
        const std::vector<uint8_t> to{10, 1, 1, 2};
        for (const std::vector<uint8_t>& frame : std::vector<std::vector<uint8_t>>{
                 {0x14, 10, 1, 1, 2, 5, 0},
                 {0x31, 10, 1, 1, 2, 5, 0},
                 {0x11, 10, 1, 1, 2, 0, 0},
                 {0x22, 10, 1, 1, 2, 5, 9, 1, 0, 17, 1, 1, 0, 0, 0, 0, 0, 4},
                 {0x12, 10, 1, 1, 2, 5, 9, 1, 0, 1, 1, 9, 9, 0, 0, 0, 4},
                 {0x00, 1, 1, 0, 0, 10, 1, 1, 1, 10, 1, 1, 2},
                 {0x11, 10, 1, 1, 2, 5, 0, 77}})
        {
            std::vector<uint8_t> bytes = head;
            bytes.insert(bytes.end(), frame.begin(), frame.end());
            put(bytes);
        }
        net.Run(at + 1);
        NS_TEST_EXPECT_MSG_EQ(net.RoutingOf(1)->GetMalformed(), 207, "all are counted");
        NS_TEST_EXPECT_MSG_EQ(net.RoutingOf(2)->GetMalformed(), 0, "none gets farther");
        net.Flow(0, 2, 0, 40);
        net.Run(at + 15);
        NS_TEST_EXPECT_MSG_EQ(net.m_received, 40, "and packets arrive");
    }
};

/**
 * \ingroup tora
 * \brief A neighbour that takes frames as a program `tora node` does.
 */
class ToraUnicastTestCase : public TestCase
{
  public:
    ToraUnicastTestCase()
        : TestCase("Frames to and from UnicastNeighbours go alone, whole and by unicast")
    {
    }

  private:
    void DoRun() override
    {
        ToraNet net({0, 200, 400}, ToraHelper());
        uint32_t whole = 0;
        uint32_t others = 0;
        // The first two are programs to each other; the third is a simulated node to all.
        net.RoutingOf(0)->SetAttribute("UnicastNeighbours", StringValue("10.1.1.2"));
        net.RoutingOf(1)->SetAttribute("UnicastNeighbours", StringValue("10.1.1.1"));
        net.RoutingOf(0)->TraceConnectWithoutContext(
            "Control",
            Callback<void, Ptr<const Packet>, const tora::ToraHeader&>(
                [&](Ptr<const Packet> packet, const tora::ToraHeader& header) {
                    bool isWhole = header.GetSerializedSize() != packet->GetSize();
                    (isWhole ? whole : others) += header.GetFrames().size();
                }));
        net.Flow(0, 2, 5, 20);
        net.Run(20);
        NS_TEST_EXPECT_MSG_EQ(net.m_received, 20, "packets over two hops");
        NS_TEST_EXPECT_MSG_GT(whole, 15, "a HELLO a second, at least");
        NS_TEST_EXPECT_MSG_EQ(others, 0, "no frame of the first node is broadcast");
        NS_TEST_EXPECT_MSG_EQ(net.RoutingOf(1)->GetMalformed(), 0, "frames that are the link's");
        Ptr<Socket> socket =
            Socket::CreateSocket(net.m_nodes.Get(0), UdpSocketFactory::GetTypeId());
        socket->Connect(InetSocketAddress(net.AddressOf(1), tora::RoutingProtocol::PORT));
        std::vector<uint8_t> bytes{9, 9, 0, 0, 10, 1, 1, 1, 10, 1, 1, 2};
        bytes.resize(40);
        socket->Send(Create<Packet>(bytes.data(), 40));
        socket->Send(Create<Packet>(bytes.data(), 20));
        net.Run(22);
        NS_TEST_EXPECT_MSG_EQ(net.RoutingOf(1)->GetMalformed(), 2, "bytes that are no frame");
    }
};

/**
 * \ingroup tora
 * \brief A node with the most neighbours.
 */
class ToraManyTestCase : public TestCase
{
  public:
    ToraManyTestCase()
        : TestCase("A node has 255 neighbours, and no more")
    {
    }

  private:
    /**
     * Makes a node with neighbours that hear it alone, and runs it.
     *
     * \param count how many neighbours
     * \param links takes the links that came up at the first node
     * \returns the next hop of the second node to the third
     */
    Ipv4Address Try(uint32_t count, uint32_t& links) const
    {
        NodeContainer nodes(count + 1);
        ToraHelper tora;
        InternetStackHelper stack;
        stack.SetRoutingHelper(tora);
        stack.Install(nodes);
        SimpleNetDeviceHelper simple;
        Ipv4AddressHelper addresses("10.1.0.0", "255.255.0.0");
        NetDeviceContainer devices = simple.Install(nodes);
        Ipv4InterfaceContainer interfaces = addresses.Assign(devices);
        auto channel = DynamicCast<SimpleChannel>(devices.Get(0)->GetChannel());
        for (uint32_t i = 1; i <= count; i++)
        {
            tora.AddLink(nodes.Get(0), nodes.Get(i));
            for (uint32_t j = 1; j <= count; j++)
            {
                channel->BlackList(DynamicCast<SimpleNetDevice>(devices.Get(i)),
                                   DynamicCast<SimpleNetDevice>(devices.Get(j)));
            }
        }
        tora.AddDestinations(NodeContainer(nodes.Get(2)));
        tora.AssignStreams(nodes, 100);
        auto routing = nodes.Get(0)->GetObject<tora::RoutingProtocol>();
        routing->TraceConnectWithoutContext(
            "LinkUp",
            Callback<void, Ipv4Address>([&links](Ipv4Address) { links++; }));
        Ptr<Socket> socket = Socket::CreateSocket(nodes.Get(1), UdpSocketFactory::GetTypeId());
        socket->Connect(InetSocketAddress(interfaces.GetAddress(2), 9));
        Simulator::Schedule(Seconds(3), [socket]() { socket->Send(Create<Packet>(64)); });
        Simulator::Stop(Seconds(5));
        Simulator::Run();
        auto second = nodes.Get(1)->GetObject<tora::RoutingProtocol>();
        Ipv4Address hop = second->GetNextHop(interfaces.GetAddress(2));
        Simulator::Destroy();
        return hop;
    }

    /**
     * \param count how many neighbours
     * \returns whether the simulation is ended for them
     */
    bool Ends(uint32_t count) const
    {
        pid_t child = fork();
        if (child == 0)
        {
            uint32_t links = 0;
            std::signal(SIGABRT, SIG_DFL);
            close(2);
            Try(count, links);
            _exit(0);
        }
        int status = 0;
        waitpid(child, &status, 0);
        return !WIFEXITED(status) || WEXITSTATUS(status) != 0;
    }

    void DoRun() override
    {
        uint32_t links = 0;
        NS_TEST_EXPECT_MSG_EQ(Ends(256), true, "256 neighbours");
        NS_TEST_EXPECT_MSG_EQ(Try(255, links), Ipv4Address("10.1.0.1"), "a route over it");
        NS_TEST_EXPECT_MSG_EQ(links, 255, "links");
    }
};

/**
 * \ingroup tora
 * \brief Networks of several kinds.
 */
class ToraNetworkTestSuite : public TestSuite
{
  public:
    ToraNetworkTestSuite()
        : TestSuite("tora-network", Type::SYSTEM)
    {
        AddTestCase(new ToraSeedTestCase);
        AddTestCase(new ToraTwoNetworksTestCase);
        AddTestCase(new ToraTwoInterfacesTestCase);
        AddTestCase(new ToraGarbageTestCase);
        AddTestCase(new ToraUnicastTestCase);
        AddTestCase(new ToraManyTestCase);
    }
};

static ToraNetworkTestSuite g_toraNetworkTestSuite; //!< the suite
