// SPDX-FileCopyrightText: 2026 the Ginavoru authors
// SPDX-License-Identifier: GPL-2.0-only

#ifndef TORA_COMPARISON_H
#define TORA_COMPARISON_H

#include "tora-peak.h"

#include "ns3/internet-module.h"
#include "ns3/network-module.h"
#include "ns3/tora-frame.h"
#include "ns3/tora-header.h"
#include "ns3/tora-routing-protocol.h"

#include <cstdint>
#include <map>
#include <memory>
#include <set>
#include <string>
#include <vector>

namespace ns3
{

/**
 * \ingroup tora
 * \brief What a run of the comparison is.
 */
struct ToraComparisonSetup
{
    std::string protocol{"TORA"}; //!< TORA, AODV, OLSR or DSDV
    std::string label;            //!< what the row calls it, or nothing for the protocol
    uint32_t nodes{20};           //!< how many nodes
    double speed{10};             //!< the greatest speed in m/s; 0: nobody moves
    uint32_t flows{5};            //!< how many flows
    uint32_t seed{1};             //!< the run of ns-3's generator
    double side{500};             //!< the side of the square in m
    double height{0};             //!< the other side of the area in m; 0: it is a square
    double range{250};            //!< the range of a radio in m
    double seconds{120};          //!< how long packets are sent, from 10 s on
    double rate{4};               //!< packets a second of each flow
    uint32_t size{64};            //!< bytes of a packet's payload
    std::string times;            //!< TORA: the times of links, HELLO,SILENT,RETRY,TRIES
    std::string tick{"100ms"};    //!< TORA: the tick
    bool isNoticing{true};        //!< TORA: whether links are cut whose neighbour is gone
    bool isReturnWaiting{true};   //!< TORA: whether packets that come back wait
    bool isSalvaging{false};      //!< TORA: whether packets that the radio gives up wait
    std::string erasure;          //!< TORA: the erasure, or nothing for the module's default
    bool hasHeader{false};        //!< whether the names of the columns are printed, too
};

/**
 * \ingroup tora
 * \brief A run of the comparison, and what it counts.
 *
 * Moving nodes with radios, flows of data packets, and one of four routing protocols. The same seed
 * gives the same motion, flows and radios, whatever the protocol.
 */
class ToraComparison
{
  public:
    /**
     * Makes nodes, routing and flows.
     *
     * \param setup what the run is
     */
    explicit ToraComparison(const ToraComparisonSetup& setup);
    /// Runs the simulation.
    void Run();
    /// Prints the row of the run.
    void Print() const;

  private:
    /// When data packets begin, in seconds.
    static constexpr double START = 10;
    /// How long the run goes on behind the last one, in seconds.
    static constexpr double REST = 10;

    /// What happened last to a data packet that may have been lost by it.
    enum class Fate
    {
        NONE,      //!< nothing: it arrived, waits at the end of the run, or was dropped in silence
        RADIO,     //!< a radio gave it up after its last retry
        ARP,       //!< ARP dropped it
        NO_ROUTE,  //!< a node dropped it for want of a route
        CAME_BACK, //!< TORA: it came back to a node
        LATE       //!< TORA: its time in a queue was over, or the queue was full
    };

    /// What is known of a data packet under way, by its number in the run.
    struct UnderWay
    {
        Ipv4Address source;     //!< its source
        uint32_t hops{1};       //!< hops until now, with the first one
        uint32_t least{0};      //!< hops of the shortest path as it was sent, or 0
        Fate fate{Fate::NONE};  //!< what happened to it last
        bool hasArrived{false}; //!< whether it arrived
    };

    /// Makes the nodes and their motion.
    void MakeNodes();
    /// Makes their radios.
    void MakeRadios();
    /**
     * \returns the helper of the routing protocol
     */
    std::unique_ptr<Ipv4RoutingHelper> MakeHelper() const;
    /**
     * \returns the helper of TORA
     */
    std::unique_ptr<Ipv4RoutingHelper> MakeTora() const;
    /// Installs IP and the routing protocol.
    void MakeRouting();
    /// Gives the routing protocol its streams of random numbers.
    void AssignStreams();
    /// Makes flows.
    void MakeFlows();
    /**
     * Sends a data packet.
     *
     * \param socket the socket of its flow
     * \param to the place of its sink
     */
    void Send(Ptr<Socket> socket, uint32_t to);
    /**
     * Data packets came.
     *
     * \param socket the socket of their sink
     */
    void Receive(Ptr<Socket> socket);
    /**
     * A node's IP hands a packet to a device.
     *
     * \param packet the packet, with its header
     */
    void CountControl(Ptr<const Packet> packet, Ptr<Ipv4>, uint32_t);
    /**
     * A node of TORA broadcasts.
     *
     * \param header what it broadcasts
     */
    void CountFrames(Ptr<const Packet>, const tora::ToraHeader& header);
    /**
     * A node forwards a packet.
     *
     * \param node the node that sends it on, counted from 0
     * \param header its header
     * \param packet the packet
     */
    void CountHop(uint32_t node, const Ipv4Header& header, Ptr<const Packet> packet);
    /**
     * Finds the shortest path now.
     *
     * \param from the place of a node
     * \param to the place of another
     * \returns how many hops it has, or 0 where there is none
     */
    uint32_t Shortest(uint32_t from, uint32_t to) const;
    /// Connects what counts packets.
    void WatchPackets();
    /**
     * Connects what drops data packets.
     *
     * \param node the place of a node
     */
    void WatchDrops(uint32_t node);
    /**
     * Connects what drops data packets in TORA.
     *
     * \param tora the routing of a node
     */
    void WatchTora(Ptr<tora::RoutingProtocol> tora);
    /**
     * Something happened to a packet.
     *
     * \param packet the packet
     * \param fate what
     */
    void Note(Ptr<const Packet> packet, Fate fate);
    /**
     * \param fate what happened last to a packet
     * \returns how many packets that did not arrive have that fate
     */
    uint32_t Lost(Fate fate) const;
    /**
     * \param share a share
     * \returns that quantile of the delays in ms, or nothing where nothing arrived
     */
    std::string DelayAt(double share) const;
    /**
     * \returns how often data packets came back to a node of TORA
     */
    uint32_t CameBack() const;
    /**
     * \param kind a kind of frames
     * \returns how many of them nodes of TORA broadcast
     */
    uint64_t CountOf(tora::Frame::Kind kind) const;
    /**
     * Prints the columns of what the run was, what arrived and what it cost.
     *
     * \param os the stream
     */
    void PrintMeans(std::ostream& os) const;

    ToraComparisonSetup m_setup;                  //!< what the run is
    NodeContainer m_nodes;                        //!< the nodes
    NetDeviceContainer m_devices;                 //!< their radios
    Ipv4InterfaceContainer m_interfaces;          //!< their interfaces
    std::unique_ptr<Ipv4RoutingHelper> m_routing; //!< the helper of the routing protocol
    std::vector<Ptr<Socket>> m_sockets;           //!< sources and sinks
    std::map<uint64_t, UnderWay> m_under;         //!< packets under way, by their number in ns-3
    uint32_t m_sequence{0};                       //!< how many packets were sent
    uint32_t m_reachable{0};                      //!< how many of them had a path as they were sent
    uint32_t m_reached{0};                        //!< how many of these arrived
    std::set<uint32_t> m_arrived;                 //!< those that arrived, by number
    std::vector<double> m_delays;                 //!< delays of those that arrived, in ms
    uint64_t m_hops{0};                           //!< their hops
    uint64_t m_leastHops{0};                      //!< hops of shortest paths, of those that had one
    uint64_t m_pathHops{0};                       //!< the hops of these
    uint64_t m_controlBytes{0};   //!< bytes of control packets, with headers of IPv4 and UDP
    uint64_t m_controlPackets{0}; //!< control packets
    ToraPeak m_controlMost;       //!< the most of these bytes in any second
    std::map<tora::Frame::Kind, uint64_t> m_frames; //!< TORA: frames by kind
    uint32_t m_late{0}; //!< TORA: packets whose time in a queue was over
};

} // namespace ns3

#endif /* TORA_COMPARISON_H */
