// SPDX-FileCopyrightText: 2026 the Ginavoru authors
// SPDX-License-Identifier: GPL-2.0-only

#ifndef TORA_QUEUE_H
#define TORA_QUEUE_H

#include "ns3/ipv4-header.h"
#include "ns3/ipv4-routing-protocol.h"
#include "ns3/nstime.h"
#include "ns3/packet.h"

#include <cstdint>
#include <functional>
#include <list>
#include <map>
#include <optional>
#include <set>
#include <tuple>
#include <vector>

namespace ns3::tora
{

/**
 * \ingroup tora
 * \brief A data packet that waits for a route.
 */
struct QueueEntry
{
    Ptr<const Packet> packet;                            //!< the packet, without its header
    Ipv4Header header;                                   //!< its header
    Ipv4RoutingProtocol::UnicastForwardCallback forward; //!< what to call when there is a route
    Ipv4RoutingProtocol::ErrorCallback error;            //!< what to call when it is dropped
    Time until;                                          //!< the moment when its time is over
    uint32_t from{0};    //!< the number of the neighbour that it came from, or 0
    uint32_t avoided{0}; //!< the number of the next hop that it came back from, or 0

    /// \param hop the number of a neighbour
    /// \returns whether the packet may go there: it did not come from there, nor back from there
    bool MayGoTo(uint32_t hop) const;
};

/**
 * \ingroup tora
 * \brief The data packets of a node that wait for routes, in the order in which they came.
 */
class RequestQueue
{
  public:
    /**
     * Adds a packet at the end. Where the queue is full the packet at its front goes.
     *
     * \param entry the packet
     * \param length the most packets that wait
     * \returns the packet that had to go, which is the new one where the greatest length is 0
     */
    std::optional<QueueEntry> Enqueue(const QueueEntry& entry, uint32_t length);
    /**
     * Tells whether packets wait that may go to a neighbour.
     *
     * \param destination their destination
     * \param hop the number of the neighbour
     * \returns whether there are any
     */
    bool Has(Ipv4Address destination, uint32_t hop) const;
    /**
     * Takes out packets to a destination, in the order in which they came.
     *
     * \param destination the destination
     * \param hop the number of the neighbour that they go to, or 0 for any
     * \param most how many at most
     * \returns the packets that may go there, in order
     */
    std::vector<QueueEntry> Take(Ipv4Address destination,
                                 uint32_t hop = 0,
                                 uint32_t most = UINT32_MAX);
    /// \param now the present moment
    /// \returns the packets whose time is over, which are taken out, in order
    std::vector<QueueEntry> TakeExpired(Time now);

    /// \returns the destinations that packets wait for
    std::set<Ipv4Address> GetDestinations() const;

    /// \returns how many packets wait
    uint32_t GetSize() const
    {
        return m_entries.size();
    }

  private:
    /// \param test whether an entry is taken
    /// \returns the entries that are taken out, in order
    std::vector<QueueEntry> TakeIf(const std::function<bool(const QueueEntry&)>& test);

    std::list<QueueEntry> m_entries; //!< the packets
};

/**
 * \ingroup tora
 * \brief The data packets that a node sent or forwarded within 10 s.
 */
class PacketHistory
{
  public:
    /// The node takes a packet, or sends it.
    /// \param header its header
    /// \param hop the number of the next hop that it goes to, or 0 where it waits as yet
    void Add(const Ipv4Header& header, uint32_t hop = 0);
    /// \param header the header of a packet
    /// \returns the number of the next hop that it went to, 0 where it waits; nothing where it
    /// isn't known
    std::optional<uint32_t> GetHop(const Ipv4Header& header) const;
    /// Forgets the packets whose time is over.
    void Expire();

  private:
    /// What tells a packet of IPv4 from others: source, destination, protocol, number and offset.
    using Name = std::tuple<uint32_t, uint32_t, uint8_t, uint16_t, uint16_t>;

    /// A data packet that was sent or forwarded.
    struct Seen
    {
        Time last;       //!< when it was taken last
        uint32_t hop{0}; //!< the number of the next hop that it went to, or 0 where it waits
    };

    /// \param header the header of a packet
    /// \returns what tells it from others
    static Name NameOf(const Ipv4Header& header);

    std::map<Name, Seen> m_seen; //!< the packets
};

} // namespace ns3::tora

#endif /* TORA_QUEUE_H */
