// SPDX-FileCopyrightText: 2026 the Ginavoru authors
// SPDX-License-Identifier: GPL-2.0-only

/**
 * \file
 * \ingroup tora
 * The suite "tora-run": small simulations, whose nodes and interfaces come and go.
 */
#include "tora-net.h"

#include "ns3/ipv4.h"
#include "ns3/output-stream-wrapper.h"
#include "ns3/test.h"
#include "ns3/uinteger.h"

#include <algorithm>
#include <sstream>

using namespace ns3;

/**
 * \ingroup tora
 * \brief Three nodes on a line: all packets arrive over two hops.
 */
class ToraLineTestCase : public TestCase
{
  public:
    ToraLineTestCase()
        : TestCase("Three nodes on a line: 100 of 100 packets, two hops each")
    {
    }

  private:
    void DoRun() override
    {
        ToraNet net({0, 200, 400}, ToraHelper());
        uint32_t biggest = 0;
        uint32_t count = 0;
        net.RoutingOf(1)->TraceConnectWithoutContext(
            "Control",
            Callback<void, Ptr<const Packet>, const tora::ToraHeader&>(
                [&biggest, &count](Ptr<const Packet> packet, const tora::ToraHeader&) {
                    biggest = std::max(biggest, packet->GetSize() + 28);
                    count++;
                }));
        net.Flow(0, 2, 5, 100);
        net.Run(40);
        NS_TEST_EXPECT_MSG_EQ(net.m_received, 100, "packets that arrive");
        NS_TEST_EXPECT_MSG_EQ(net.m_leastTtl, 63, "two hops");
        NS_TEST_EXPECT_MSG_EQ(net.m_unreachable, 0, "no ICMP");
        NS_TEST_EXPECT_MSG_LT_OR_EQ(biggest,
                                    tora::RoutingProtocol::MAX_PACKET_SIZE,
                                    "size of a packet");
        NS_TEST_EXPECT_MSG_GT(count, 35, "a packet a second at least");
        NS_TEST_EXPECT_MSG_EQ(net.RoutingOf(0)->GetNextHop(net.AddressOf(2)),
                              net.AddressOf(1),
                              "the next hop");
        NS_TEST_EXPECT_MSG_EQ(net.RoutingOf(0)->GetHeard().size(), 1, "neighbours");
        std::ostringstream table;
        net.RoutingOf(0)->PrintRoutingTable(Create<OutputStreamWrapper>(&table));
        NS_TEST_EXPECT_MSG_NE(table.str().find("10.1.1.3        10.1.1.2        1\n"),
                              std::string::npos,
                              "the table: " << table.str());
        // The node that never asked knows its neighbour alone, and an address of no node is
        // refused.
        NS_TEST_EXPECT_MSG_EQ(net.RoutingOf(2)->GetNextHop(Ipv4Address("10.1.1.77")),
                              Ipv4Address::GetAny(),
                              "no such node");
        Ptr<Socket> lost = Socket::CreateSocket(net.m_nodes.Get(0), UdpSocketFactory::GetTypeId());
        lost->Connect(InetSocketAddress(Ipv4Address("10.1.1.77"), 9));
        NS_TEST_EXPECT_MSG_EQ(lost->Send(Create<Packet>(64)), -1, "it can't be sent");
        NS_TEST_EXPECT_MSG_EQ(lost->GetErrno(), Socket::ERROR_NOROUTETOHOST, "and why");
    }
};

/**
 * \ingroup tora
 * \brief The middle node goes and comes back.
 */
class ToraGoneTestCase : public TestCase
{
  public:
    ToraGoneTestCase()
        : TestCase("The middle node goes: clear, ICMP; it comes back: a route")
    {
    }

  private:
    /**
     * Connects what the first node tells.
     *
     * \param net the nodes
     */
    void Watch(const ToraNet& net)
    {
        net.RoutingOf(0)->TraceConnectWithoutContext(
            "Drop",
            Callback<void, Ptr<const Packet>, const Ipv4Header&, tora::RoutingProtocol::DropReason>(
                [this](Ptr<const Packet>,
                       const Ipv4Header&,
                       tora::RoutingProtocol::DropReason reason) {
                    m_late += reason == tora::RoutingProtocol::TIME_OVER;
                }));
        Ipv4Address last = net.AddressOf(2);
        net.RoutingOf(0)->TraceConnectWithoutContext(
            "RouteChange",
            Callback<void, Ipv4Address, Ipv4Address, Ipv4Address>(
                [this, last](Ipv4Address to, Ipv4Address, Ipv4Address after) {
                    if (to == last)
                    {
                        m_hops.push_back(after);
                    }
                }));
        net.RoutingOf(0)->TraceConnectWithoutContext(
            "LinkDown",
            Callback<void, Ipv4Address, tora::DownReason>(
                [this](Ipv4Address neighbour, tora::DownReason) { m_lost.push_back(neighbour); }));
    }

    void DoRun() override
    {
        ToraHelper tora;
        tora.Set("MaxQueueTime", TimeValue(Seconds(5)));
        ToraNet net({0, 200, 400}, tora);
        Watch(net);
        net.Flow(0, 2, 5, 20);
        net.Run(20);
        NS_TEST_EXPECT_MSG_EQ(net.m_received, 20, "packets before");
        net.Move(1, 5000);
        net.Run(30);
        net.Flow(0, 2, 0.1, 20);
        net.Run(45);
        NS_TEST_EXPECT_MSG_EQ(net.m_received, 20, "none arrives meanwhile");
        NS_TEST_EXPECT_MSG_EQ(m_late, 20, "their time is over");
        NS_TEST_EXPECT_MSG_EQ(net.m_unreachable, 20, "and the source is told");
        NS_TEST_EXPECT_MSG_EQ(net.RoutingOf(0)->GetQueueSize(), 0, "none waits");
        NS_TEST_EXPECT_MSG_EQ(net.RoutingOf(0)->GetNextHop(net.AddressOf(2)),
                              Ipv4Address::GetAny(),
                              "there is no route");
        net.Move(1, 200);
        net.Run(50);
        net.Flow(0, 2, 0.1, 20);
        net.Run(70);
        NS_TEST_EXPECT_MSG_EQ(net.m_received, 40, "packets after");
        std::vector<Ipv4Address> expected{net.AddressOf(1),
                                          Ipv4Address::GetAny(),
                                          net.AddressOf(1)};
        NS_TEST_EXPECT_MSG_EQ((m_hops == expected), true, "next hops: found, lost, found");
        NS_TEST_EXPECT_MSG_EQ((m_lost == std::vector<Ipv4Address>{net.AddressOf(1)}),
                              true,
                              "the neighbour that was lost");
    }

    uint32_t m_late{0};              //!< packets whose time was over
    std::vector<Ipv4Address> m_hops; //!< next hops to the last node, as they changed
    std::vector<Ipv4Address> m_lost; //!< neighbours that were lost
};

/**
 * \ingroup tora
 * \brief On a line of four the loss of the last link erases the routes by a clear.
 */
class ToraClearTestCase : public TestCase
{
  public:
    ToraClearTestCase()
        : TestCase("The destination goes: the routes to it are cleared")
    {
    }

  private:
    void DoRun() override
    {
        ToraNet net({0, 200, 400, 600}, ToraHelper());
        uint32_t clears = 0;
        for (uint32_t i = 0; i < 4; i++)
        {
            net.RoutingOf(i)->TraceConnectWithoutContext(
                "Control",
                Callback<void, Ptr<const Packet>, const tora::ToraHeader&>(
                    [&clears](Ptr<const Packet>, const tora::ToraHeader& header) {
                        for (const auto& frame : header.GetFrames())
                        {
                            for (auto packet : frame.GetPackets())
                            {
                                clears += packet == tora::Frame::CLR;
                            }
                        }
                    }));
        }
        net.Flow(0, 3, 5, 40);
        net.Run(20);
        NS_TEST_EXPECT_MSG_EQ(net.m_received, 40, "packets over three hops");
        NS_TEST_EXPECT_MSG_EQ(net.m_leastTtl, 62, "three hops");
        NS_TEST_EXPECT_MSG_EQ(clears, 0, "no clear");
        net.Move(3, 5000);
        net.Run(40);
        NS_TEST_EXPECT_MSG_GT(clears, 0, "clears");
        for (uint32_t i = 0; i < 3; i++)
        {
            NS_TEST_EXPECT_MSG_EQ(net.RoutingOf(i)->GetNextHop(net.AddressOf(3)),
                                  Ipv4Address::GetAny(),
                                  "no route is left at " << i);
        }
    }
};

/**
 * \ingroup tora
 * \brief Interfaces and addresses go and come, and a node begins anew.
 */
class ToraChangesTestCase : public TestCase
{
  public:
    ToraChangesTestCase()
        : TestCase("Interfaces, addresses and nodes go and come")
    {
    }

  private:
    /// An interface goes down and comes up.
    void GoDownAndUp()
    {
        ToraNet net({0, 200, 400}, ToraHelper());
        Ptr<Ipv4> middle = net.m_nodes.Get(1)->GetObject<Ipv4>();
        net.Flow(0, 2, 5, 20);
        net.Run(15);
        NS_TEST_EXPECT_MSG_EQ(net.m_received, 20, "packets before");
        middle->SetDown(1);
        net.Run(25);
        NS_TEST_EXPECT_MSG_EQ(net.RoutingOf(0)->GetHeard().size(), 0, "it is not heard");
        NS_TEST_EXPECT_MSG_EQ(net.RoutingOf(1)->GetHeard().size(), 0, "and hears nobody");
        NS_TEST_EXPECT_MSG_EQ(net.RoutingOf(1)->GetNumber(), Ipv4Address::GetAny(), "no router");
        middle->SetUp(1);
        net.Run(30);
        net.Flow(0, 2, 0.1, 20);
        net.Run(40);
        NS_TEST_EXPECT_MSG_EQ(net.m_received, 40, "packets after");
    }

    /// A node begins anew.
    void Restart()
    {
        ToraNet net({0, 200, 400}, ToraHelper());
        uint64_t life = 0;
        net.RoutingOf(1)->TraceConnectWithoutContext(
            "Control",
            Callback<void, Ptr<const Packet>, const tora::ToraHeader&>(
                [&life](Ptr<const Packet>, const tora::ToraHeader& header) {
                    for (const auto& frame : header.GetFrames())
                    {
                        life = std::max<uint64_t>(life, frame.GetLives()[7]);
                    }
                }));
        net.Flow(0, 2, 5, 20);
        net.Run(15);
        uint64_t before = life;
        NS_TEST_EXPECT_MSG_EQ(net.m_received, 20, "packets before");
        net.RoutingOf(1)->Restart();
        NS_TEST_EXPECT_MSG_EQ(net.RoutingOf(1)->GetNextHop(net.AddressOf(2)),
                              Ipv4Address::GetAny(),
                              "it knows no route");
        net.Run(25);
        net.Flow(0, 2, 0.1, 20);
        net.Run(35);
        NS_TEST_EXPECT_MSG_EQ(net.m_received, 40, "packets after");
        NS_TEST_EXPECT_MSG_GT(life, before, "its life numbers go on");
    }

    /// A node loses its address, and has it again.
    void LoseAddress()
    {
        ToraNet net({0, 200, 400}, ToraHelper());
        Ptr<Ipv4> middle = net.m_nodes.Get(1)->GetObject<Ipv4>();
        Ipv4InterfaceAddress address = middle->GetAddress(1, 0);
        net.Flow(0, 2, 5, 20);
        net.Run(15);
        NS_TEST_EXPECT_MSG_EQ(net.m_received, 20, "packets before");
        middle->RemoveAddress(1, 0);
        net.Run(25);
        NS_TEST_EXPECT_MSG_EQ(net.RoutingOf(0)->GetHeard().size(), 0, "it is not heard");
        middle->AddAddress(1, address);
        net.Run(30);
        net.Flow(0, 2, 0.1, 20);
        net.Run(40);
        NS_TEST_EXPECT_MSG_EQ(net.m_received, 40, "packets after");
    }

    void DoRun() override
    {
        GoDownAndUp();
        Restart();
        LoseAddress();
    }
};

/**
 * \ingroup tora
 * \brief Link ends with short times: no packet waits for the radio behind another.
 */
class ToraShortTimesTestCase : public TestCase
{
  public:
    ToraShortTimesTestCase()
        : TestCase("Short times make no storm: at most a packet a tick, and data arrive")
    {
    }

  private:
    void DoRun() override
    {
        ToraHelper tora;
        tora.Set("HelloTicks", UintegerValue(5));
        tora.Set("SilentTicks", UintegerValue(15));
        tora.Set("RetryTicks", UintegerValue(2));
        tora.Set("Tries", UintegerValue(6));
        ToraNet net({0, 25, 50, 75, 100, 125, 150, 175, 300}, tora);
        std::vector<uint32_t> counts(net.m_nodes.GetN());
        for (uint32_t i = 0; i < counts.size(); i++)
        {
            net.RoutingOf(i)->TraceConnectWithoutContext(
                "Control",
                Callback<void, Ptr<const Packet>, const tora::ToraHeader&>(
                    [&counts, i](Ptr<const Packet>, const tora::ToraHeader&) { counts[i]++; }));
        }
        net.Flow(0, 8, 5, 80);
        net.Run(30);
        NS_TEST_EXPECT_MSG_EQ(net.m_received, 80, "packets over two hops");
        NS_TEST_EXPECT_MSG_EQ(net.m_leastTtl, 63, "two hops");
        for (uint32_t count : counts)
        {
            NS_TEST_EXPECT_MSG_LT_OR_EQ(count, 301, "a packet a tick of 100 ms");
        }
    }
};

/**
 * \ingroup tora
 * \brief Small simulations.
 */
class ToraRunTestSuite : public TestSuite
{
  public:
    ToraRunTestSuite()
        : TestSuite("tora-run", Type::SYSTEM)
    {
        AddTestCase(new ToraLineTestCase);
        AddTestCase(new ToraGoneTestCase);
        AddTestCase(new ToraClearTestCase);
        AddTestCase(new ToraChangesTestCase);
        AddTestCase(new ToraShortTimesTestCase);
    }
};

static ToraRunTestSuite g_toraRunTestSuite; //!< the suite
