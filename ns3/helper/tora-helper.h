// SPDX-FileCopyrightText: 2026 the Ginavoru authors
// SPDX-License-Identifier: GPL-2.0-only

#ifndef TORA_HELPER_H
#define TORA_HELPER_H

#include "tora-network.h"

#include "ns3/ipv4-routing-helper.h"
#include "ns3/node-container.h"
#include "ns3/node.h"
#include "ns3/object-factory.h"

#include <string>

namespace ns3
{

/**
 * \ingroup tora
 * \brief Helper class that adds TORA routing to nodes.
 *
 * The nodes that a helper and its copies are installed on are a network: each of them may meet each
 * other one, and each is a destination. A node takes the others as they are when it starts, so all
 * nodes that it is to meet have to have their addresses by then. A node has at most 255 neighbours
 * and 64 destinations; with more nodes AddLink() names those that may meet, and AddDestinations()
 * those that routes are found to.
 */
class ToraHelper : public Ipv4RoutingHelper
{
  public:
    ToraHelper();

    /**
     * \returns pointer to clone of this ToraHelper
     *
     * \internal
     * This method is mainly for internal use by the other helpers;
     * clients are expected to free the dynamic memory allocated by this method
     */
    ToraHelper* Copy() const override;

    /**
     * \param node the node on which the routing protocol will run
     * \returns a newly-created routing protocol
     *
     * This method will be called by ns3::InternetStackHelper::Install
     */
    Ptr<Ipv4RoutingProtocol> Create(Ptr<Node> node) const override;

    /**
     * \param name the name of the attribute to set
     * \param value the value of the attribute to set.
     *
     * This method controls the attributes of ns3::tora::RoutingProtocol
     */
    void Set(std::string name, const AttributeValue& value);

    /**
     * Names two nodes that may meet. From the first call on only those that are named may; so no
     * frames are prepared for others.
     *
     * \param a a node
     * \param b another
     */
    void AddLink(Ptr<Node> a, Ptr<Node> b) const;

    /**
     * Names destinations. From the first call on routes are found only to those that are named.
     *
     * \param nodes the nodes
     */
    void AddDestinations(const NodeContainer& nodes) const;

    /**
     * Assign a fixed random variable stream number to the random variables
     * used by this model.  Return the number of streams (possibly zero) that
     * have been assigned.  The Install() method of the InternetStackHelper
     * should have previously been called by the user.
     *
     * \param c NodeContainer of the set of nodes for which TORA
     *          should be modified to use a fixed stream
     * \param stream first stream index to use
     * \return the number of stream indices assigned by this helper
     */
    int64_t AssignStreams(NodeContainer c, int64_t stream) const;

  private:
    ObjectFactory m_factory;    //!< the factory to create tora::RoutingProtocol objects
    Ptr<ToraNetwork> m_network; //!< the nodes, the same for all copies of the helper
};

} // namespace ns3

#endif /* TORA_HELPER_H */
