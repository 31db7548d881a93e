// SPDX-FileCopyrightText: 2026 the Ginavoru authors
// SPDX-License-Identifier: GPL-2.0-only

#ifndef TORA_ROUTER_H
#define TORA_ROUTER_H

#include "tora-frame.h"

#include <cstddef>
#include <cstdint>
#include <memory>
#include <optional>
#include <string>
#include <vector>

namespace ns3::tora
{

/**
 * \ingroup tora
 * \brief What a router does with the reference levels that it erased.
 */
enum Erasure
{
    PLAIN,     //!< it forgets them, as the texts do
    REMEMBERED //!< it takes no update of the level that it erased last
};

/**
 * \ingroup tora
 * \brief Why a link is down.
 */
enum DownReason
{
    SILENT = 1,   //!< the neighbour was not heard, or did not acknowledge a packet
    NEW_PEER = 2, //!< the neighbour began a newer life
    FULL = 3,     //!< too many packets waited to be sent
    CUT = 4,      //!< the node cut it
    SPENT = 5     //!< the numbers of packets were used up
};

/**
 * \ingroup tora
 * \brief What a router is to be.
 */
struct RouterConfig
{
    uint32_t me{0};                     //!< the number of its node
    std::vector<uint32_t> neighbours;   //!< the nodes that it may ever have a link to
    std::vector<uint32_t> destinations; //!< the nodes that it finds routes to
    Erasure erasure{REMEMBERED};        //!< what it does with erased reference levels
    uint32_t helloTicks{10};            //!< from a HELLO of a link to the next one
    uint32_t silentTicks{50};           //!< how long a link lasts whose neighbour is not heard
    uint32_t retryTicks{5};             //!< from a try of a packet to the next one
    uint32_t tries{8};                  //!< how many times a packet is sent
    uint64_t firstLife{1};              //!< the life numbers of its links begin here
};

/**
 * \ingroup tora
 * \brief What changed at a router.
 */
struct Change
{
    /// What it is.
    enum Kind
    {
        LINK_UP = 1,   //!< the link to a neighbour is up
        LINK_DOWN = 2, //!< the link to a neighbour is down
        NEXT_HOP = 3   //!< the next hop to a destination is another one
    };

    Kind kind;         //!< what it is
    uint32_t node;     //!< the neighbour, or the destination
    uint32_t hop;      //!< of NEXT_HOP: the next hop, or 0 where there is none
    DownReason reason; //!< of LINK_DOWN: why
};

/**
 * \ingroup tora
 * \brief A router of the library libtora: the heights and next hops of a node, and its links.
 *
 * It takes in frames that came, ticks, needs and cuts, and gives out frames to be sent and changes.
 * Moments are counted in ticks. Without Make() it takes in nothing, and gives out nothing.
 */
class Router
{
  public:
    /// The most neighbours of a router.
    static constexpr std::size_t MOST_NEIGHBOURS = 255;
    /// The most destinations of a router.
    static constexpr std::size_t MOST_DESTINATIONS = 64;

    Router();
    ~Router();

    // Delete copy constructor and assignment operator: the library keeps one state a router
    Router(const Router&) = delete;
    Router& operator=(const Router&) = delete;

    /// Makes the router. It ends the simulation where the configuration is none.
    /// \param config what it is to be
    void Make(const RouterConfig& config);
    /// Ends the router; what it knew is lost.
    void Free();
    /// \returns whether it was made and not ended
    bool IsMade() const;
    /// A frame came.
    /// \param peer the number of the node that it came from
    /// \param frame the frame
    /// \param now the tick
    /// \returns whether it is one that the peer sends to this node
    bool Take(uint32_t peer, const Frame& frame, uint64_t now);
    /// Time passed.
    /// \param now the tick
    void Tick(uint64_t now);
    /// A route is needed.
    /// \param destination the number of the destination
    /// \param now the tick
    void Need(uint32_t destination, uint64_t now);
    /// A neighbour is gone: the life of the link to it ends.
    /// \param peer the number of the neighbour
    /// \param now the tick
    void Cut(uint32_t peer, uint64_t now);
    /// \param now the tick
    /// \returns the next frame to be sent; nothing where none is due
    std::optional<Frame> PollFrame(uint64_t now);
    /// \returns what changed and was not told yet; nothing where all was told
    std::optional<Change> PollChange();
    /// \returns the next life number: it and those above were given to no link
    uint64_t GetNextLife() const;
    /// \returns the heights of the node and of its neighbours in words, a line each
    std::string Show() const;

  private:
    struct Handle;                    //!< the library's handle
    std::unique_ptr<Handle> m_handle; //!< the library's handle
};

} // namespace ns3::tora

#endif /* TORA_ROUTER_H */
