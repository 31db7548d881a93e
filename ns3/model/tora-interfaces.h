// SPDX-FileCopyrightText: 2026 the Ginavoru authors
// SPDX-License-Identifier: GPL-2.0-only

#ifndef TORA_INTERFACES_H
#define TORA_INTERFACES_H

#include "ns3/arp-cache.h"
#include "ns3/ipv4-route.h"
#include "ns3/ipv4.h"
#include "ns3/net-device.h"
#include "ns3/socket.h"

#include <cstdint>
#include <map>

namespace ns3::tora
{

/**
 * \ingroup tora
 * \brief The interfaces of a node that TORA uses, each with a socket for its broadcast packets and
 * ARP, and the routes that need no next hop.
 */
class Interfaces
{
  public:
    /// \param ipv4 IP of the node, whose interface 0 is loopback
    void SetIpv4(Ptr<Ipv4> ipv4);
    /**
     * Opens the socket of an interface.
     *
     * \param interface the interface
     * \param port the UDP port
     * \param receive what is called when packets come
     */
    void Open(uint32_t interface, uint16_t port, Callback<void, Ptr<Socket>> receive);
    /// Closes the socket of an interface, where it is open.
    /// \param interface the interface
    void Close(uint32_t interface);

    /// \param interface an interface
    /// \returns whether its socket is open
    bool IsOpen(uint32_t interface) const
    {
        return m_sockets.count(interface) > 0;
    }

    /// \returns the sockets by interface
    const std::map<uint32_t, Ptr<Socket>>& GetSockets() const
    {
        return m_sockets;
    }

    /// \returns the first address of the node as a number, or 0 where it has none but loopback's
    uint32_t GetNumber() const;

    /// \param destination the destination of a packet
    /// \param gateway the next hop
    /// \param interface the interface that it goes over
    /// \returns its route
    Ptr<Ipv4Route> GetRoute(Ipv4Address destination, Ipv4Address gateway, uint32_t interface) const;
    /// \param address an address
    /// \returns the interface that it is a broadcast or multicast address of, or -1
    int32_t GetOfBroadcast(Ipv4Address address) const;
    /// \param route the route of a packet
    /// \returns whether the packet can go at once: ARP knows the next hop, or is not needed
    bool IsResolved(Ptr<Ipv4Route> route) const;
    /// Lets ARP ask for a neighbour anew that it gave up: it is heard.
    /// \param address its address
    /// \param interface the interface
    void Revive(Ipv4Address address, uint32_t interface) const;

  private:
    /// \param interface an interface
    /// \returns its ARP cache, or nothing where its device needs none
    Ptr<ArpCache> CacheOf(uint32_t interface) const;

    Ptr<Ipv4> m_ipv4;                          //!< IP of the node
    std::map<uint32_t, Ptr<Socket>> m_sockets; //!< sockets by interface
};

} // namespace ns3::tora

#endif /* TORA_INTERFACES_H */
