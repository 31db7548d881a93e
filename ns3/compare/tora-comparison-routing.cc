// SPDX-FileCopyrightText: 2026 the Ginavoru authors
// SPDX-License-Identifier: GPL-2.0-only

#include "tora-comparison.h"

#include "ns3/aodv-helper.h"
#include "ns3/core-module.h"
#include "ns3/dsdv-helper.h"
#include "ns3/olsr-helper.h"
#include "ns3/tora-helper.h"

#include <sstream>

namespace ns3
{

namespace
{

// Streams of ns-3's generator
constexpr int64_t STACK_STREAM = 50000;   ///< IP
constexpr int64_t ROUTING_STREAM = 90000; ///< the routing protocol

/**
 * Reads what nodes make of erased levels.
 *
 * \param word the word of the command line
 * \returns the choice
 */
tora::Erasure
ErasureOf(const std::string& word)
{
    if (word == "plain")
    {
        return tora::PLAIN;
    }
    if (word == "remembered")
    {
        return tora::REMEMBERED;
    }
    NS_FATAL_ERROR("no erasure " << word << ": plain or remembered");
}

/**
 * Sets the times of links.
 *
 * \param tora the helper
 * \param words four numbers with commas between them, or nothing
 */
void
SetTimes(ToraHelper& tora, const std::string& words)
{
    std::istringstream numbers(words);
    std::string number;
    for (const char* name : {"HelloTicks", "SilentTicks", "RetryTicks", "Tries"})
    {
        if (std::getline(numbers, number, ','))
        {
            tora.Set(name, StringValue(number));
        }
    }
}

} // namespace

std::unique_ptr<Ipv4RoutingHelper>
ToraComparison::MakeTora() const
{
    auto tora = std::make_unique<ToraHelper>();
    SetTimes(*tora, m_setup.times);
    tora->Set("Tick", StringValue(m_setup.tick));
    tora->Set("Notice", BooleanValue(m_setup.isNoticing));
    tora->Set("WaitReturn", BooleanValue(m_setup.isReturnWaiting));
    tora->Set("Salvage", BooleanValue(m_setup.isSalvaging));
    if (!m_setup.erasure.empty())
    {
        tora->Set("Erasure", EnumValue(ErasureOf(m_setup.erasure)));
    }
    return tora;
}

std::unique_ptr<Ipv4RoutingHelper>
ToraComparison::MakeHelper() const
{
    if (m_setup.protocol == "TORA")
    {
        return MakeTora();
    }
    if (m_setup.protocol == "AODV")
    {
        return std::make_unique<AodvHelper>();
    }
    if (m_setup.protocol == "OLSR")
    {
        return std::make_unique<OlsrHelper>();
    }
    if (m_setup.protocol == "DSDV")
    {
        return std::make_unique<DsdvHelper>();
    }
    NS_FATAL_ERROR("no protocol " << m_setup.protocol << ": TORA, AODV, OLSR or DSDV");
}

void
ToraComparison::MakeRouting()
{
    InternetStackHelper stack;
    m_routing = MakeHelper();
    stack.SetRoutingHelper(*m_routing);
    stack.Install(m_nodes);
    Ipv4AddressHelper addresses("10.1.0.0", "255.255.0.0");
    m_interfaces = addresses.Assign(m_devices);
    stack.AssignStreams(m_nodes, STACK_STREAM);
    AssignStreams();
}

void
ToraComparison::AssignStreams()
{
    Ipv4RoutingHelper* routing = m_routing.get();
    if (auto* tora = dynamic_cast<ToraHelper*>(routing))
    {
        tora->AssignStreams(m_nodes, ROUTING_STREAM);
    }
    else if (auto* aodv = dynamic_cast<AodvHelper*>(routing))
    {
        aodv->AssignStreams(m_nodes, ROUTING_STREAM);
    }
    else if (auto* olsr = dynamic_cast<OlsrHelper*>(routing))
    {
        olsr->AssignStreams(m_nodes, ROUTING_STREAM);
    }
}

} // namespace ns3
