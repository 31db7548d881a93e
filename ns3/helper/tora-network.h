// SPDX-FileCopyrightText: 2026 the Ginavoru authors
// SPDX-License-Identifier: GPL-2.0-only

#ifndef TORA_NETWORK_H
#define TORA_NETWORK_H

#include "ns3/node.h"
#include "ns3/ptr.h"
#include "ns3/simple-ref-count.h"
#include "ns3/tora-routing-protocol.h"

#include <cstdint>
#include <map>
#include <vector>

namespace ns3
{

/**
 * \ingroup tora
 * \brief The nodes that a ToraHelper was installed on, which may meet.
 *
 * A node that has no address yet, or was disposed, is none of those that are answered.
 */
class ToraNetwork : public SimpleRefCount<ToraNetwork>
{
  public:
    /// A node joins.
    /// \param node the node
    void Add(Ptr<Node> node);
    /// Names two nodes that may meet. From the first call on only those that are named may.
    /// \param a a node
    /// \param b another
    void AddLink(Ptr<Node> a, Ptr<Node> b);
    /// Names a destination. From the first call on only those that are named are destinations.
    /// \param node the node
    void AddDestination(Ptr<Node> node);
    /// \param node a node
    /// \returns the other nodes that it may meet, and the destinations, as they are now
    tora::Surroundings Look(Ptr<const Node> node) const;

  private:
    /// Nodes, each once, in the order in which they came.
    using Nodes = std::vector<Ptr<Node>>;

    /// \param nodes nodes
    /// \returns the numbers of those that have one
    static std::vector<uint32_t> NumbersOf(const Nodes& nodes);

    Nodes m_nodes;                            //!< the nodes
    Nodes m_destinations;                     //!< those that are named as destinations
    std::map<Ptr<const Node>, Nodes> m_links; //!< by a node those that it may meet
};

} // namespace ns3

#endif /* TORA_NETWORK_H */
