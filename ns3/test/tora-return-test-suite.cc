// SPDX-FileCopyrightText: 2026 the Ginavoru authors
// SPDX-License-Identifier: GPL-2.0-only

/**
 * \file
 * \ingroup tora
 * The suite "tora-return": data packets that are lost or come back, and what is done then.
 */
#include "tora-net.h"

#include "ns3/test.h"

using namespace ns3;

/**
 * \ingroup tora
 * \brief A next hop goes: with notice the route changes sooner, and with salvage packets wait for
 * it.
 */
class ToraNoticeTestCase : public TestCase
{
  public:
    ToraNoticeTestCase()
        : TestCase("With notice or salvage a lost neighbour costs less")
    {
    }

  private:
    /**
     * A flow over one of two middle nodes, which goes.
     *
     * \param isNoticing whether notice is on
     * \param isSalvaging whether packets that the radio gives up wait
     * \returns how many packets arrive
     */
    uint32_t Try(bool isNoticing, bool isSalvaging)
    {
        ToraHelper tora;
        tora.Set("Notice", BooleanValue(isNoticing));
        tora.Set("Salvage", BooleanValue(isSalvaging));
        ToraNet net({0, 200, 210, 400}, tora);
        net.Flow(0, 3, 5, 100);
        net.Run(15);
        bool isFirst = net.RoutingOf(0)->GetNextHop(net.AddressOf(3)) == net.AddressOf(1);
        net.Move(isFirst ? 1 : 2, 5000);
        net.Run(40);
        return net.m_received;
    }

    void DoRun() override
    {
        uint32_t without = Try(false, false);
        uint32_t with = Try(true, false);
        NS_TEST_EXPECT_MSG_GT(without, 70, "packets that arrive without notice");
        NS_TEST_EXPECT_MSG_GT(with, without, "and with it");
        NS_TEST_EXPECT_MSG_EQ(Try(false, true), 100, "no packet is lost where they wait");
    }
};

/**
 * \ingroup tora
 * \brief A packet that comes back is dropped and counted.
 */
class ToraCameBackTestCase : public TestCase
{
  public:
    ToraCameBackTestCase()
        : TestCase("A packet that comes back is dropped")
    {
    }

  private:
    void DoRun() override
    {
        ToraHelper tora;
        tora.Set("WaitReturn", BooleanValue(false));
        ToraNet net({0, 200, 400}, tora);
        uint32_t forwarded = 0;
        net.CountForwarded(1, forwarded);
        net.Run(10);
        Ptr<tora::RoutingProtocol> routing = net.RoutingOf(1);
        net.Inject(0, 1, net.AddressOf(0), net.AddressOf(2), 999);
        net.Run(11);
        NS_TEST_EXPECT_MSG_EQ(forwarded, 1, "it is forwarded");
        net.Inject(2, 1, net.AddressOf(0), net.AddressOf(2), 999);
        net.Run(12);
        NS_TEST_EXPECT_MSG_EQ(forwarded, 1, "it comes back, and is not");
        NS_TEST_EXPECT_MSG_EQ(routing->GetCameBack(), 1, "but counted");
        net.Inject(2, 1, net.AddressOf(1), net.AddressOf(2), 1000);
        net.Run(13);
        NS_TEST_EXPECT_MSG_EQ(routing->GetCameBack(), 2, "its own packet");
        NS_TEST_EXPECT_MSG_EQ(routing->GetQueueSize(), 0, "none waits");
    }
};

/**
 * \ingroup tora
 * \brief With WaitReturn a packet that comes back, or whose next hop is the node that it came from,
 * waits until the next hop changes.
 */
class ToraWaitReturnTestCase : public TestCase
{
  public:
    ToraWaitReturnTestCase()
        : TestCase("A packet that comes back waits until the next hop changes")
    {
    }

  private:
    /**
     * A packet for the last node comes to the first one.
     *
     * \param net two ways over one node each from the first node to the last
     * \param number the number of the packet
     * \param from the place of the node that sent it
     */
    void Come(ToraNet& net, uint16_t number, uint32_t from) const
    {
        net.Inject(from, 0, Ipv4Address("10.9.9.9"), net.AddressOf(3), number);
        net.Run(Simulator::Now().GetSeconds() + 0.5);
    }

    void DoRun() override
    {
        ToraNet net({0, 200, 210, 400}, ToraHelper());
        uint32_t forwarded = 0;
        net.Flow(0, 3, 5, 4);
        net.Run(10);
        net.CountForwarded(0, forwarded);
        Ptr<tora::RoutingProtocol> routing = net.RoutingOf(0);
        bool isFirst = routing->GetNextHop(net.AddressOf(3)) == net.AddressOf(1);
        uint32_t next = isFirst ? 1 : 2;
        Come(net, 999, 3 - next);
        NS_TEST_EXPECT_MSG_EQ(forwarded, 1, "it goes");
        Come(net, 999, next);
        NS_TEST_EXPECT_MSG_EQ(forwarded, 1, "it comes back, and waits");
        NS_TEST_EXPECT_MSG_EQ(routing->GetCameBack(), 1, "it is counted");
        Come(net, 1000, next);
        NS_TEST_EXPECT_MSG_EQ(forwarded, 1, "one whose next hop is where it came from waits");
        NS_TEST_EXPECT_MSG_EQ(routing->GetQueueSize(), 2, "both wait");
        Come(net, 1001, 3 - next);
        NS_TEST_EXPECT_MSG_EQ(forwarded, 2, "another goes meanwhile");
        net.Move(next, 5000);
        net.Run(30);
        NS_TEST_EXPECT_MSG_EQ(routing->GetNextHop(net.AddressOf(3)),
                              net.AddressOf(3 - next),
                              "the next hop changes");
        NS_TEST_EXPECT_MSG_EQ(forwarded, 4, "and both go");
        NS_TEST_EXPECT_MSG_EQ(net.m_received, 4, "packets of the flow");
    }
};

/**
 * \ingroup tora
 * \brief Data packets that are lost or come back.
 */
class ToraReturnTestSuite : public TestSuite
{
  public:
    ToraReturnTestSuite()
        : TestSuite("tora-return", Type::SYSTEM)
    {
        AddTestCase(new ToraNoticeTestCase);
        AddTestCase(new ToraCameBackTestCase);
        AddTestCase(new ToraWaitReturnTestCase);
    }
};

static ToraReturnTestSuite g_toraReturnTestSuite; //!< the suite
