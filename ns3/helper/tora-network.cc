// SPDX-FileCopyrightText: 2026 the Ginavoru authors
// SPDX-License-Identifier: GPL-2.0-only

#include "tora-network.h"

#include "ns3/ipv4.h"
#include "ns3/node-list.h"

#include <algorithm>

namespace ns3
{

namespace
{

/// Adds a node to a list that does not have it.
void
Insert(std::vector<Ptr<Node>>& nodes, Ptr<Node> node)
{
    if (std::find(nodes.begin(), nodes.end(), node) == nodes.end())
    {
        nodes.push_back(node);
    }
}

/// \returns the addresses of a node but those of the loopback interface; none once it is disposed
std::vector<Ipv4Address>
AddressesOf(Ptr<Node> node)
{
    std::vector<Ipv4Address> addresses;
    bool isThere =
        node->GetId() < NodeList::GetNNodes() && NodeList::GetNode(node->GetId()) == node;
    Ptr<Ipv4> ipv4 = node->GetObject<Ipv4>();
    for (uint32_t i = 1; isThere && ipv4 && i < ipv4->GetNInterfaces(); i++)
    {
        for (uint32_t j = 0; j < ipv4->GetNAddresses(i); j++)
        {
            addresses.push_back(ipv4->GetAddress(i, j).GetLocal());
        }
    }
    return addresses;
}

} // namespace

void
ToraNetwork::Add(Ptr<Node> node)
{
    Insert(m_nodes, node);
}

void
ToraNetwork::AddLink(Ptr<Node> a, Ptr<Node> b)
{
    Insert(m_links[a], b);
    Insert(m_links[b], a);
}

void
ToraNetwork::AddDestination(Ptr<Node> node)
{
    Insert(m_destinations, node);
}

tora::Surroundings
ToraNetwork::Look(Ptr<const Node> node) const
{
    Nodes others = m_nodes;
    if (!m_links.empty())
    {
        auto named = m_links.find(node);
        others = named == m_links.end() ? Nodes() : named->second;
    }
    others.erase(std::remove(others.begin(), others.end(), node), others.end());
    tora::Surroundings around;
    around.neighbours = NumbersOf(others);
    around.destinations = NumbersOf(m_destinations.empty() ? m_nodes : m_destinations);
    for (const auto& one : m_nodes)
    {
        std::vector<Ipv4Address> addresses = AddressesOf(one);
        for (Ipv4Address address : addresses)
        {
            around.numbers[address] = addresses.front().Get();
        }
    }
    return around;
}

std::vector<uint32_t>
ToraNetwork::NumbersOf(const Nodes& nodes)
{
    std::vector<uint32_t> numbers;
    for (const auto& node : nodes)
    {
        std::vector<Ipv4Address> addresses = AddressesOf(node);
        if (!addresses.empty())
        {
            numbers.push_back(addresses.front().Get());
        }
    }
    return numbers;
}

} // namespace ns3
