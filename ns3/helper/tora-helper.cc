// SPDX-FileCopyrightText: 2026 the Ginavoru authors
// SPDX-License-Identifier: GPL-2.0-only

#include "tora-helper.h"

#include "ns3/ipv4-list-routing.h"
#include "ns3/ipv4.h"
#include "ns3/tora-routing-protocol.h"

namespace ns3
{

ToraHelper::ToraHelper()
    : m_network(ns3::Create<ToraNetwork>())
{
    m_factory.SetTypeId("ns3::tora::RoutingProtocol");
}

ToraHelper*
ToraHelper::Copy() const
{
    return new ToraHelper(*this);
}

Ptr<Ipv4RoutingProtocol>
ToraHelper::Create(Ptr<Node> node) const
{
    Ptr<tora::RoutingProtocol> routing = m_factory.Create<tora::RoutingProtocol>();
    m_network->Add(node);
    routing->SetSurroundings(MakeCallback(&ToraNetwork::Look, m_network));
    node->AggregateObject(routing);
    return routing;
}

void
ToraHelper::Set(std::string name, const AttributeValue& value)
{
    m_factory.Set(name, value);
}

void
ToraHelper::AddLink(Ptr<Node> a, Ptr<Node> b) const
{
    m_network->AddLink(a, b);
}

void
ToraHelper::AddDestinations(const NodeContainer& nodes) const
{
    for (auto node = nodes.Begin(); node != nodes.End(); node++)
    {
        m_network->AddDestination(*node);
    }
}

int64_t
ToraHelper::AssignStreams(NodeContainer c, int64_t stream) const
{
    int64_t current = stream;
    for (auto node = c.Begin(); node != c.End(); node++)
    {
        Ptr<tora::RoutingProtocol> routing = (*node)->GetObject<tora::RoutingProtocol>();
        NS_ASSERT_MSG(routing, "TORA is not installed on node " << (*node)->GetId());
        current += routing->AssignStreams(current);
    }
    return current - stream;
}

} // namespace ns3
