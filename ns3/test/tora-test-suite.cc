// SPDX-FileCopyrightText: 2026 the Ginavoru authors
// SPDX-License-Identifier: GPL-2.0-only

/**
 * \file
 * \ingroup tora
 * The suite "tora": the queue and the router of the library, without a simulation.
 */
#include "ns3/packet.h"
#include "ns3/test.h"
#include "ns3/tora-queue.h"
#include "ns3/tora-router.h"

#include <vector>

using namespace ns3;

/**
 * \ingroup tora
 * \brief The queue keeps order, length and time.
 */
class ToraQueueTestCase : public TestCase
{
  public:
    ToraQueueTestCase()
        : TestCase("The queue keeps order, length and time")
    {
    }

  private:
    /**
     * \param destination the destination
     * \param until when its time is over
     * \returns a packet that waits
     */
    tora::QueueEntry Entry(const char* destination, double until) const
    {
        tora::QueueEntry entry;
        entry.packet = Create<Packet>();
        entry.header.SetDestination(Ipv4Address(destination));
        entry.until = Seconds(until);
        return entry;
    }

    void DoRun() override
    {
        tora::RequestQueue queue;
        tora::QueueEntry first = Entry("10.1.1.1", 30);
        NS_TEST_EXPECT_MSG_EQ(queue.Enqueue(first, 3).has_value(), false, "there is room");
        queue.Enqueue(Entry("10.1.1.2", 31), 3);
        queue.Enqueue(Entry("10.1.1.1", 32), 3);
        auto gone = queue.Enqueue(Entry("10.1.1.3", 33), 3);
        NS_TEST_ASSERT_MSG_EQ(gone.has_value(), true, "the queue is full");
        NS_TEST_EXPECT_MSG_EQ((gone->packet == first.packet), true, "the first one goes");
        NS_TEST_EXPECT_MSG_EQ(queue.GetDestinations().size(), 3, "destinations");
        auto late = queue.TakeExpired(Seconds(32));
        NS_TEST_EXPECT_MSG_EQ(late.size(), 2, "two are late");
        NS_TEST_EXPECT_MSG_EQ(late[0].until, Seconds(31), "in order");
        NS_TEST_EXPECT_MSG_EQ(queue.Take(Ipv4Address("10.1.1.1")).size(), 0, "none is left");
        NS_TEST_EXPECT_MSG_EQ(queue.Take(Ipv4Address("10.1.1.3")).size(), 1, "one is");
        NS_TEST_EXPECT_MSG_EQ(queue.GetSize(), 0, "and none then");
        tora::QueueEntry returned = Entry("10.1.1.1", 30);
        returned.from = 7;
        returned.avoided = 8;
        queue.Enqueue(returned, 3);
        Ipv4Address to("10.1.1.1");
        NS_TEST_EXPECT_MSG_EQ(queue.Has(to, 7), false, "not where it came from");
        NS_TEST_EXPECT_MSG_EQ(queue.Take(to, 8).size(), 0, "nor where it was before");
        NS_TEST_EXPECT_MSG_EQ(queue.Has(Ipv4Address("10.1.1.2"), 9), false, "elsewhere");
        NS_TEST_EXPECT_MSG_EQ(queue.Has(to, 9), true, "to another");
        queue.Enqueue(first, 3);
        NS_TEST_EXPECT_MSG_EQ(queue.Take(to, 7).size(), 1, "the other may go there");
        NS_TEST_EXPECT_MSG_EQ(queue.Take(to, 9).size(), 1, "and it to another");
        NS_TEST_EXPECT_MSG_EQ(queue.Enqueue(first, 0).has_value(), true, "no room at all");
    }
};

/**
 * \ingroup tora
 * \brief Two routers of the library find each other.
 */
class ToraRouterTestCase : public TestCase
{
  public:
    ToraRouterTestCase()
        : TestCase("Two routers find each other, and a route")
    {
    }

  private:
    /**
     * \param me the number of a node
     * \param other the number of its neighbour
     * \returns what its router is to be
     */
    tora::RouterConfig Config(uint32_t me, uint32_t other) const
    {
        tora::RouterConfig config;
        config.me = me;
        config.neighbours = {other};
        config.destinations = {1, 2};
        return config;
    }

    /**
     * Gives the frames of a router to another.
     *
     * \param from the router that sends
     * \param peer its number
     * \param to the router that receives
     * \param now the tick
     */
    void Carry(tora::Router& from, uint32_t peer, tora::Router& to, uint64_t now)
    {
        while (auto frame = from.PollFrame(now))
        {
            NS_TEST_EXPECT_MSG_EQ(frame->GetSender(), peer, "it is its own frame");
            NS_TEST_EXPECT_MSG_EQ(to.Take(peer, *frame, now), true, "it is taken");
        }
    }

    void DoRun() override
    {
        tora::Router one;
        tora::Router two;
        NS_TEST_EXPECT_MSG_EQ(one.IsMade(), false, "there is none yet");
        NS_TEST_EXPECT_MSG_EQ(one.PollFrame(0).has_value(), false, "it sends nothing");
        one.Make(Config(1, 2));
        two.Make(Config(2, 1));
        NS_TEST_EXPECT_MSG_EQ(one.GetNextLife(), 1, "no life is drawn");
        for (uint64_t now = 1; now < 10; now++)
        {
            one.Tick(now);
            two.Tick(now);
            Carry(one, 1, two, now);
            Carry(two, 2, one, now);
        }
        auto change = one.PollChange();
        NS_TEST_ASSERT_MSG_EQ(change.has_value(), true, "something changed");
        NS_TEST_EXPECT_MSG_EQ(change->kind, tora::Change::LINK_UP, "the link is up");
        change = one.PollChange();
        NS_TEST_ASSERT_MSG_EQ(change.has_value(), true, "and more");
        NS_TEST_EXPECT_MSG_EQ(change->kind, tora::Change::NEXT_HOP, "there is a next hop");
        NS_TEST_EXPECT_MSG_EQ(change->node, 2, "to the neighbour");
        NS_TEST_EXPECT_MSG_EQ(change->hop, 2, "which is the neighbour");
        NS_TEST_EXPECT_MSG_NE(one.Show().find("to 2 "), std::string::npos, "it shows its heights");
        std::vector<uint8_t> bytes(tora::Frame::HEADER_SIZE, 9);
        NS_TEST_EXPECT_MSG_EQ(one.Take(2, tora::Frame(bytes), 10), false, "this is no frame");
        one.Cut(2, 10);
        change = one.PollChange();
        NS_TEST_ASSERT_MSG_EQ(change.has_value(), true, "it is cut");
        NS_TEST_EXPECT_MSG_EQ(change->kind, tora::Change::LINK_DOWN, "the link is down");
        NS_TEST_EXPECT_MSG_EQ(change->reason, tora::CUT, "and why");
        one.Tick(11);
        NS_TEST_EXPECT_MSG_EQ(one.GetNextLife(), 3, "two lives were drawn");
        one.Free();
        NS_TEST_EXPECT_MSG_EQ(one.IsMade(), false, "it is gone");
    }
};

/**
 * \ingroup tora
 * \brief Tests without a simulation.
 */
class ToraTestSuite : public TestSuite
{
  public:
    ToraTestSuite()
        : TestSuite("tora", Type::UNIT)
    {
        AddTestCase(new ToraQueueTestCase);
        AddTestCase(new ToraRouterTestCase);
    }
};

static ToraTestSuite g_toraTestSuite; //!< the suite
