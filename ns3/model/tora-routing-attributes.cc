// SPDX-FileCopyrightText: 2026 the Ginavoru authors
// SPDX-License-Identifier: GPL-2.0-only

#include "tora-routing-protocol.h"

#include "ns3/boolean.h"
#include "ns3/enum.h"
#include "ns3/nstime.h"
#include "ns3/string.h"
#include "ns3/trace-source-accessor.h"
#include "ns3/uinteger.h"

namespace ns3::tora
{

NS_OBJECT_ENSURE_REGISTERED(RoutingProtocol);

void
RoutingProtocol::AddRouter(TypeId& tid)
{
    // From ns-3.41 on EnumValue is a template; so its type is that of a value.
    using Value = decltype(EnumValue(PLAIN));
    tid.AddAttribute("Neighbours",
                     "The nodes that this one may meet, at most 255: their first addresses, with "
                     "blanks between them. Empty: all nodes of the ToraHelper, or those that "
                     "its AddLink names. It holds from the next start of the node on.",
                     StringValue(""),
                     MakeStringAccessor(&RoutingProtocol::m_neighbourNames),
                     MakeStringChecker())
        .AddAttribute("Destinations",
                      "The nodes that routes are found to, at most 64: their first addresses, "
                      "with blanks between them. Empty: all nodes of the ToraHelper, or those that "
                      "its AddDestinations names. It holds from the next start of the node on.",
                      StringValue(""),
                      MakeStringAccessor(&RoutingProtocol::m_destinationNames),
                      MakeStringChecker())
        .AddAttribute("UnicastNeighbours",
                      "Those of Neighbours that are programs `tora node` and no simulated nodes: "
                      "their addresses, with blanks between them. A datagram to or from one is a "
                      "frame. It holds from the next start of the node on.",
                      StringValue(""),
                      MakeStringAccessor(&RoutingProtocol::m_unicastNames),
                      MakeStringChecker())
        .AddAttribute("Erasure",
                      "What the node does with erased reference levels: Plain or Remembered. It "
                      "holds from the next start of the node on.",
                      EnumValue(REMEMBERED),
                      MakeAccessorHelper<Value>(&RoutingProtocol::m_erasure),
                      MakeEnumChecker(PLAIN, "Plain", REMEMBERED, "Remembered"))
        .AddAttribute("Tick",
                      "The duration of a tick, in which the times of links are counted; the same "
                      "at all nodes of a network.",
                      TimeValue(MilliSeconds(100)),
                      MakeTimeAccessor(&RoutingProtocol::m_tick),
                      MakeTimeChecker(MicroSeconds(1)))
        .AddAttribute("HelloTicks",
                      "From a HELLO of a link to the next one, in ticks.",
                      UintegerValue(10),
                      MakeUintegerAccessor(&RoutingProtocol::m_helloTicks),
                      MakeUintegerChecker<uint32_t>(1))
        .AddAttribute("SilentTicks",
                      "How long a link lasts whose neighbour is not heard, in ticks.",
                      UintegerValue(50),
                      MakeUintegerAccessor(&RoutingProtocol::m_silentTicks),
                      MakeUintegerChecker<uint32_t>(1))
        .AddAttribute("RetryTicks",
                      "From a try of a control packet to the next one, in ticks.",
                      UintegerValue(5),
                      MakeUintegerAccessor(&RoutingProtocol::m_retryTicks),
                      MakeUintegerChecker<uint32_t>(1))
        .AddAttribute("Tries",
                      "How many times a control packet is sent that is not acknowledged, before "
                      "its link goes down.",
                      UintegerValue(8),
                      MakeUintegerAccessor(&RoutingProtocol::m_tries),
                      MakeUintegerChecker<uint32_t>(1));
}

void
RoutingProtocol::AddLinks(TypeId& tid)
{
    tid.AddAttribute("Notice",
                     "Whether a link is cut where the radio gives up a unicast frame to the "
                     "neighbour, or two of its beacons are missed.",
                     BooleanValue(true),
                     MakeBooleanAccessor(&RoutingProtocol::m_isNoticing),
                     MakeBooleanChecker())
        .AddAttribute("BeaconInterval",
                      "How long a node is silent at most.",
                      TimeValue(Seconds(1)),
                      MakeTimeAccessor(&RoutingProtocol::m_beaconInterval),
                      MakeTimeChecker(MicroSeconds(1)))
        .AddAttribute("HeardTimeout",
                      "How long frames are sent to a neighbour that is not heard.",
                      TimeValue(Seconds(3)),
                      MakeTimeAccessor(&RoutingProtocol::m_heardTimeout),
                      MakeTimeChecker(MicroSeconds(1)))
        .AddAttribute("Salvage",
                      "Whether a data packet that the radio gives up waits for a route once more, "
                      "and its next hop is not used until it is heard again.",
                      BooleanValue(false),
                      MakeBooleanAccessor(&RoutingProtocol::m_isSalvaging),
                      MakeBooleanChecker())
        .AddAttribute("WaitReturn",
                      "Whether a data packet that comes back, or whose next hop is the node "
                      "that it came from, waits until the next hop changes.",
                      BooleanValue(true),
                      MakeBooleanAccessor(&RoutingProtocol::m_isReturnWaiting),
                      MakeBooleanChecker())
        .AddAttribute("MaxQueueLen",
                      "The most packets that wait for a route, in packets.",
                      UintegerValue(64),
                      MakeUintegerAccessor(&RoutingProtocol::m_maxQueueLen),
                      MakeUintegerChecker<uint32_t>())
        .AddAttribute("MaxQueueTime",
                      "How long a packet waits for a route at most.",
                      TimeValue(Seconds(30)),
                      MakeTimeAccessor(&RoutingProtocol::m_maxQueueTime),
                      MakeTimeChecker());
}

void
RoutingProtocol::AddTraces(TypeId& tid)
{
    tid.AddTraceSource("RouteChange",
                       "The next hop to a destination changed.",
                       MakeTraceSourceAccessor(&RoutingProtocol::m_routeTrace),
                       "ns3::tora::RoutingProtocol::RouteTracedCallback")
        .AddTraceSource("LinkUp",
                        "The link to a neighbour is up.",
                        MakeTraceSourceAccessor(&RoutingProtocol::m_linkUpTrace),
                        "ns3::tora::RoutingProtocol::LinkUpTracedCallback")
        .AddTraceSource("LinkDown",
                        "The link to a neighbour is down.",
                        MakeTraceSourceAccessor(&RoutingProtocol::m_linkDownTrace),
                        "ns3::tora::RoutingProtocol::LinkDownTracedCallback")
        .AddTraceSource("Control",
                        "A packet of TORA is broadcast.",
                        MakeTraceSourceAccessor(&RoutingProtocol::m_controlTrace),
                        "ns3::tora::RoutingProtocol::ControlTracedCallback")
        .AddTraceSource("ControlBytes",
                        "Bytes that were broadcast, with headers of IPv4 and UDP.",
                        MakeTraceSourceAccessor(&RoutingProtocol::m_controlBytes),
                        "ns3::TracedValueCallback::Uint64")
        .AddTraceSource("Malformed",
                        "How many packets and frames came that are none of TORA.",
                        MakeTraceSourceAccessor(&RoutingProtocol::m_malformed),
                        "ns3::TracedValueCallback::Uint32")
        .AddTraceSource("CameBack",
                        "How many data packets came back to the node.",
                        MakeTraceSourceAccessor(&RoutingProtocol::m_cameBack),
                        "ns3::TracedValueCallback::Uint32")
        .AddTraceSource("Drop",
                        "A data packet is dropped.",
                        MakeTraceSourceAccessor(&RoutingProtocol::m_drop),
                        "ns3::tora::RoutingProtocol::DropTracedCallback");
}

TypeId
RoutingProtocol::GetTypeId()
{
    static TypeId tid = [] {
        TypeId made = TypeId("ns3::tora::RoutingProtocol")
                          .SetParent<Ipv4RoutingProtocol>()
                          .SetGroupName("Tora")
                          .AddConstructor<RoutingProtocol>();
        AddRouter(made);
        AddLinks(made);
        AddTraces(made);
        return made;
    }();
    return tid;
}

} // namespace ns3::tora
