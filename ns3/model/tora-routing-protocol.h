// SPDX-FileCopyrightText: 2026 the Ginavoru authors
// SPDX-License-Identifier: GPL-2.0-only

#ifndef TORA_ROUTING_PROTOCOL_H
#define TORA_ROUTING_PROTOCOL_H

#include "tora-header.h"
#include "tora-interfaces.h"
#include "tora-queue.h"
#include "tora-router.h"

#include "ns3/address.h"
#include "ns3/callback.h"
#include "ns3/event-id.h"
#include "ns3/ipv4-routing-protocol.h"
#include "ns3/ipv4.h"
#include "ns3/net-device.h"
#include "ns3/node.h"
#include "ns3/random-variable-stream.h"
#include "ns3/traced-callback.h"
#include "ns3/traced-value.h"

#include <list>
#include <map>
#include <set>
#include <string>
#include <vector>

/**
 * \defgroup tora TORA Routing
 *
 * The Temporally-Ordered Routing Algorithm (Park and Corson, INFOCOM 1997). The rules and the links
 * are those of the library libtora, one router a node; the classes here carry its frames and the
 * data packets over ns-3's devices. doc/tora.rst tells how they are used.
 */

namespace ns3
{

class WifiMpdu;
enum WifiMacDropReason : uint8_t; // opaque enum declaration

namespace tora
{

/// The callbacks of Ipv4RoutingProtocol::RouteInput(): values, and from ns-3.39 on references.
template <typename T>
struct InputOf;

/// As above.
template <typename P, typename H, typename D, typename U, typename M, typename L, typename E>
struct InputOf<bool (Ipv4RoutingProtocol::*)(P, H, D, U, M, L, E)>
{
    using Unicast = U;   //!< what forwards a packet
    using Multicast = M; //!< what forwards a packet to a group
    using Local = L;     //!< what delivers a packet
    using Error = E;     //!< what tells that a packet is dropped
};

/**
 * \ingroup tora
 * \brief What a node knows of a neighbour that it heard.
 */
struct Neighbour
{
    Ipv4Address address;        //!< its address on the interface
    Address device;             //!< the hardware address of its device there
    uint32_t heardOn{0};        //!< the interface of this node on which it was heard last
    Time heard;                 //!< when it was heard last
    uint8_t newest{0};          //!< the newest version of frames that it has shown
    bool isSuspect{false};      //!< whether the radio gave up a frame to it since it was heard
    bool isNoticed{false};      //!< whether its link was cut since it was heard
    std::vector<uint8_t> hello; //!< the lives that the last HELLO to it named
};

/**
 * \ingroup tora
 * \brief The nodes around a node, by their numbers: first addresses, as numbers of 32 bits.
 */
struct Surroundings
{
    std::vector<uint32_t> neighbours;        //!< the nodes that it may meet
    std::vector<uint32_t> destinations;      //!< the nodes that routes are found to
    std::map<Ipv4Address, uint32_t> numbers; //!< the nodes by all of their addresses
};

/**
 * \ingroup tora
 * \brief TORA: the router of a node, its control packets, and the node's data packets.
 *
 * The router is made once the node is initialized and an interface is up, with the neighbours and
 * destinations of that moment. It is ended when the last interface goes down, and made anew when
 * one comes up: what it knew is lost then, and its life numbers go on.
 *
 * Frames that came are handed to the router in the next tick, or before a link is cut, neighbour by
 * neighbour. Where it took them as they came, sparse networks had more loops and up to ten times
 * the control bytes.
 *
 * Frames that are due in a tick go out in one broadcast packet, at a random moment within the tick,
 * and only to neighbours that were heard lately. At most one such packet of a node waits for the
 * radio. A data packet without a next hop waits, too. README.md tells the rest.
 *
 * A program `tora node` takes frames one by one, by unicast: UnicastNeighbours names such.
 */
class RoutingProtocol : public Ipv4RoutingProtocol
{
  public:
    /// The UDP port of the broadcast packets.
    static constexpr uint16_t PORT = 5047;
    /// The most bytes of a broadcast packet, with its IPv4 and UDP headers.
    static constexpr uint32_t MAX_PACKET_SIZE = 1400;

    /// The parameters of RouteInput().
    using Input = InputOf<decltype(&Ipv4RoutingProtocol::RouteInput)>;

    /// Why a data packet was dropped.
    enum DropReason
    {
        NO_DESTINATION, //!< no destination has the address
        NO_INTERFACE,   //!< the node has no interface that is up, or does not forward
        QUEUE_FULL,     //!< it was the first of a queue that was full
        TIME_OVER,      //!< it waited for MaxQueueTime
        CAME_BACK       //!< the node had sent or forwarded it before
    };

    /// TracedCallback signature for changes of a next hop.
    /// \param [in] destination the destination
    /// \param [in] before the next hop until now, or 0.0.0.0
    /// \param [in] after the next hop from now on, or 0.0.0.0
    typedef void (*RouteTracedCallback)(Ipv4Address destination,
                                        Ipv4Address before,
                                        Ipv4Address after);
    /// TracedCallback signature for links that come up.
    /// \param [in] neighbour the number of the neighbour, as an address
    typedef void (*LinkUpTracedCallback)(Ipv4Address neighbour);
    /// TracedCallback signature for links that go down.
    /// \param [in] neighbour the number of the neighbour, as an address
    /// \param [in] reason why
    typedef void (*LinkDownTracedCallback)(Ipv4Address neighbour, DownReason reason);
    /// TracedCallback signature for broadcast packets.
    /// \param [in] packet the packet, with its header
    /// \param [in] header the header
    typedef void (*ControlTracedCallback)(Ptr<const Packet> packet, const ToraHeader& header);
    /// TracedCallback signature for data packets that are dropped.
    /// \param [in] packet the packet
    /// \param [in] header its header
    /// \param [in] reason why
    typedef void (*DropTracedCallback)(Ptr<const Packet> packet,
                                       const Ipv4Header& header,
                                       DropReason reason);

    /// \return the object TypeId
    static TypeId GetTypeId();

    RoutingProtocol();

    // Inherited from Ipv4RoutingProtocol
    Ptr<Ipv4Route> RouteOutput(Ptr<Packet> p,
                               const Ipv4Header& header,
                               Ptr<NetDevice> oif,
                               Socket::SocketErrno& sockerr) override;
    bool RouteInput(Ptr<const Packet> p,
                    const Ipv4Header& header,
                    Ptr<const NetDevice> idev,
                    Input::Unicast ucb,
                    Input::Multicast mcb,
                    Input::Local lcb,
                    Input::Error ecb) override;
    void NotifyInterfaceUp(uint32_t interface) override;
    void NotifyInterfaceDown(uint32_t interface) override;
    void NotifyAddAddress(uint32_t interface, Ipv4InterfaceAddress address) override;
    void NotifyRemoveAddress(uint32_t interface, Ipv4InterfaceAddress address) override;
    void SetIpv4(Ptr<Ipv4> ipv4) override;
    void PrintRoutingTable(Ptr<OutputStreamWrapper> stream,
                           Time::Unit unit = Time::S) const override;

    /// Assigns fixed streams to the random variables of this model.
    /// \param stream the first stream
    /// \return how many streams are assigned
    int64_t AssignStreams(int64_t stream);

    /// \param look what tells the nodes around a node as they are
    void SetSurroundings(Callback<Surroundings, Ptr<const Node>> look)
    {
        m_look = look;
    }

    /// The node begins anew, as after a loss of power: its routes and the packets that wait are
    /// lost, and its life numbers go on.
    void Restart();

    /// \returns the node's number, its first address, or 0.0.0.0 while it has no router
    Ipv4Address GetNumber() const
    {
        return Ipv4Address(m_number);
    }

    /// \param destination any address of a destination
    /// \returns the address of the next hop to it, or 0.0.0.0
    Ipv4Address GetNextHop(Ipv4Address destination) const;
    /// \returns the addresses of the neighbours that were heard within HeardTimeout
    std::vector<Ipv4Address> GetHeard() const;

    /// \returns how many data packets wait for a route
    uint32_t GetQueueSize() const
    {
        return m_queue.GetSize();
    }

    /// \returns how many data packets came back to the node
    uint32_t GetCameBack() const
    {
        return m_cameBack;
    }

    /// \returns how many packets and frames came that are none of TORA
    uint32_t GetMalformed() const
    {
        return m_malformed;
    }

    /// \returns the heights of the node and of its neighbours in words, a line each
    std::string Show() const
    {
        return m_router.Show();
    }

  protected:
    void DoInitialize() override;
    void DoDispose() override;

  private:
    /// Adds the attributes of the router and its times to the type.
    static void AddRouter(TypeId& tid);
    /// Adds the attributes of links and of data packets that wait to the type.
    static void AddLinks(TypeId& tid);
    /// Adds the trace sources to the type.
    static void AddTraces(TypeId& tid);
    /// Begins or ends to look at what a radio reports.
    void Watch(uint32_t interface, bool isWatched);
    /// Makes the router, where the node is initialized and an interface is up.
    void Start();
    /// Ends the router.
    void Stop();
    /// \returns the nodes around this one, as the attributes name them, or else the helper
    Surroundings Look() const;
    /// \returns the number of the ns-3 node
    uint32_t GetNodeNumber() const;
    /// \returns the present tick
    uint64_t GetTick() const;
    /// A tick: a turn of the router, and of all that waits.
    void OnTick();
    /// A frame is due.
    void TakeFrame(const Frame& frame);
    /// Sends a frame alone and whole to a neighbour that is no simulated node.
    void SendWhole(const Frame& frame, const Neighbour& to);
    /// Tells what changed at the router.
    void TakeChanges();
    /// A next hop changed; neighbour 0 is none.
    void SetNextHop(uint32_t destination, uint32_t neighbour);
    /// A packet of IPv4 came to a device, and goes to IP next.
    void NoteSender(Ptr<NetDevice> device,
                    Ptr<const Packet> packet,
                    uint16_t protocol,
                    const Address& from,
                    const Address& to,
                    NetDevice::PacketType type);
    /// \returns the number of the neighbour with a hardware address, or 0
    uint32_t FindDevice(const Address& device) const;
    /// A broadcast packet came.
    void Receive(Ptr<Socket> socket);
    /// Hands the frames that came since the last tick to the router, neighbour by neighbour.
    void HandIn();
    /// A neighbour was heard.
    void Hear(const ToraHeader& header, Ipv4Address address, uint32_t interface, uint64_t packet);
    /// The link to a neighbour is cut.
    void Cut(uint32_t neighbour);
    /// The radio begins to send a packet.
    void OnTxBegin(Ptr<const Packet> packet, double power);
    /// The radio gave a packet up.
    void OnDroppedMpdu(WifiMacDropReason reason, Ptr<const WifiMpdu> mpdu);
    /// A data packet that the radio gave up waits for a route once more.
    void Salvage(Ptr<const Packet> packet);
    /// Lets go of neighbours that were not heard lately.
    void ExpireNeighbours();
    /// Schedules the next broadcast.
    void ScheduleBroadcast(Time within);
    /// Broadcasts what is due, or a beacon.
    void Broadcast();
    /// Takes as many frames from those that are due as go into a packet, and answers its header.
    ToraHeader TakePacket();
    /// \returns the number of the destination with an address, or 0 where there is none
    uint32_t NumberOf(Ipv4Address address) const;
    /// \returns the number of the next hop to an address, or 0 where there is none
    uint32_t HopTo(Ipv4Address destination) const;
    /// \returns the route to an address, or nothing where there is none
    Ptr<Ipv4Route> RouteTo(Ipv4Address destination) const;
    /// Takes a packet for another node, and tells whether it did.
    bool Pass(const QueueEntry& entry, uint32_t interface);
    /// Forwards a packet, or lets it wait for a route.
    void Forward(const QueueEntry& entry);
    /// Lets a packet wait for a route.
    void Wait(const QueueEntry& entry);
    /// Sends a packet, and notes its next hop.
    void Send(const QueueEntry& entry, Ptr<Ipv4Route> route);
    /// A data packet came back: it is dropped, or waits.
    void Return(const QueueEntry& entry);
    /// Drops a data packet, and tells its source.
    void Drop(const QueueEntry& entry, DropReason reason);
    /// Tells the source of a packet that its destination can't be reached.
    void SendUnreachable(const QueueEntry& entry);
    /// Sends the packets that wait and have a route, and asks for the routes of all others.
    void ServeQueue();
    /// Schedules ServeQueue().
    void ScheduleQueue(Time delay = Time(0));
    /// Sends packets that wait for a destination: one alone until ARP knows the next hop.
    void Release(Ipv4Address destination, Ptr<Ipv4Route> route);

    // Attributes
    Time m_tick;                    //!< how long a tick takes
    uint32_t m_helloTicks;          //!< from a HELLO of a link to the next one
    uint32_t m_silentTicks;         //!< how long a link lasts whose neighbour is not heard
    uint32_t m_retryTicks;          //!< from a try of a control packet to the next one
    uint32_t m_tries;               //!< how many times a control packet is sent
    Erasure m_erasure;              //!< what the router does with erased reference levels
    std::string m_neighbourNames;   //!< the nodes that this one may meet, where they are named
    std::string m_destinationNames; //!< the destinations, where they are named
    std::string m_unicastNames;     //!< the neighbours that are no simulated nodes
    bool m_isSalvaging;             //!< whether packets that the radio gives up wait
    bool m_isNoticing;              //!< whether links are cut whose neighbour is gone
    bool m_isReturnWaiting;         //!< whether packets that come back wait
    Time m_beaconInterval;          //!< how long the node is silent at most
    Time m_heardTimeout;            //!< how long a neighbour counts as heard
    uint32_t m_maxQueueLen;         //!< how many packets wait at most
    Time m_maxQueueTime;            //!< how long a packet waits at most

    Ptr<Ipv4> m_ipv4;                                 //!< IP of the node
    Callback<Surroundings, Ptr<const Node>> m_look;   //!< what tells the nodes around this one
    Ptr<UniformRandomVariable> m_random;              //!< the moments of broadcasts
    EventId m_tickEvent;                              //!< the next tick
    uint32_t m_number{0};                             //!< the node's number, or 0
    uint64_t m_nextLife{1};                           //!< where life numbers go on
    Router m_router;                                  //!< the router
    std::set<uint32_t> m_peers;                       //!< the numbers of the nodes that it may meet
    std::set<uint32_t> m_unicast;                     //!< those of them that are no simulated nodes
    std::map<Ipv4Address, uint32_t> m_numbers;        //!< destinations by their addresses
    Interfaces m_interfaces;                          //!< the interfaces that are up
    std::map<uint32_t, Neighbour> m_neighbours;       //!< neighbours that are heard
    std::map<uint32_t, std::list<Frame>> m_hellos;    //!< the last HELLOs to nodes not heard
    std::map<uint32_t, uint32_t> m_hops;              //!< next hops by destination
    RequestQueue m_queue;                             //!< packets that wait for a route
    std::map<uint32_t, std::vector<Frame>> m_arrived; //!< frames since the last tick, by sender
    std::list<Frame> m_due;                           //!< frames that wait to be broadcast
    uint64_t m_cameWith{0};         //!< the number in ns-3 of the packet of IPv4 that came last
    Address m_cameFrom;             //!< the hardware address that it came from
    bool m_isUrgent{false};         //!< whether a frame that is due is more than an old HELLO
    bool m_isScheduled{false};      //!< whether a broadcast is scheduled
    bool m_isQueueScheduled{false}; //!< whether ServeQueue() is scheduled
    Time m_lastBroadcast;           //!< when the last broadcast was made
    std::set<uint32_t> m_radios;    //!< interfaces whose radio is looked at
    std::set<uint64_t> m_unsent;    //!< packets of the last broadcast that no radio has sent
    PacketHistory m_history;        //!< packets sent or forwarded
    std::map<Ipv4Address, Time> m_resolving; //!< next hops that ARP was asked for, and when
    std::map<uint32_t, Time> m_asked;        //!< destinations asked for, and when

    TracedCallback<Ipv4Address, Ipv4Address, Ipv4Address> m_routeTrace;      //!< "RouteChange"
    TracedCallback<Ipv4Address> m_linkUpTrace;                               //!< "LinkUp"
    TracedCallback<Ipv4Address, DownReason> m_linkDownTrace;                 //!< "LinkDown"
    TracedCallback<Ptr<const Packet>, const ToraHeader&> m_controlTrace;     //!< "Control"
    TracedCallback<Ptr<const Packet>, const Ipv4Header&, DropReason> m_drop; //!< "Drop"
    TracedValue<uint64_t> m_controlBytes;                                    //!< "ControlBytes"
    TracedValue<uint32_t> m_cameBack;                                        //!< "CameBack"
    TracedValue<uint32_t> m_malformed;                                       //!< "Malformed"
};

} // namespace tora

} // namespace ns3

#endif /* TORA_ROUTING_PROTOCOL_H */
