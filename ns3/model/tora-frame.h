// SPDX-FileCopyrightText: 2026 the Ginavoru authors
// SPDX-License-Identifier: GPL-2.0-only

#ifndef TORA_FRAME_H
#define TORA_FRAME_H

#include <cstdint>
#include <optional>
#include <ostream>
#include <vector>

namespace ns3::tora
{

/**
 * \ingroup tora
 * \brief A frame of a neighbour link: a datagram that a router gives out for a neighbour.
 *
 * Routers spell and read frames; this class only looks at those bytes that say for whom a frame is
 * and what it carries. All numbers are in network byte order.
 *
 * On the air a frame has a short form, from which its receiver has the very bytes of the frame,
 * since the packet names the sender once and most numbers are small. Its first byte is the version
 * of the frame, times 16, plus its kind. Behind it come the receiver (4 bytes), the sender's life
 * and the life that it heard; in an ACK the acknowledged count; in a DATA frame the number of the
 * first packet, the acknowledged count, in version 2 how many packets there are (1 byte), and the
 * packets. A life, a number or a count takes as many bytes as it has groups of 7 bits, the lowest
 * group first, each byte but the last plus 128. A frame that this form would change is sent whole,
 * behind a byte 0.
 */
class Frame
{
  public:
    /// The kinds of frames.
    enum Kind : uint8_t
    {
        HELLO = 1, //!< names the lives of both ends
        DATA = 2,  //!< carries packets, and acknowledges
        ACK = 3    //!< acknowledges
    };

    /// The kinds of TORA's packets in a frame.
    enum PacketKind : uint8_t
    {
        QRY = 1, //!< asks for a route
        UPD = 2, //!< tells a height
        CLR = 3  //!< erases routes
    };

    /// Bytes before the payload of a frame, and so the fewest of any.
    static constexpr uint32_t HEADER_SIZE = 28;
    /// The newest version of frames.
    static constexpr uint8_t NEWEST = 2;

    /// \param bytes the bytes of the frame, at least HEADER_SIZE
    explicit Frame(std::vector<uint8_t> bytes);

    /**
     * Reads a frame in its short form.
     *
     * \param sender the node that sends the packet
     * \param at where the form begins; it is left where the form ends
     * \param end the end of the bytes that there are
     * \returns the frame; nothing where the bytes are no such form
     */
    static std::optional<Frame> ReadShort(uint32_t sender, const uint8_t*& at, const uint8_t* end);
    /// \returns the short form of the frame
    std::vector<uint8_t> GetShort() const;

    /// \returns the bytes of the frame
    const std::vector<uint8_t>& GetBytes() const
    {
        return m_bytes;
    }

    /// \returns the version of the frame
    uint8_t GetVersion() const
    {
        return m_bytes[0];
    }

    /// \returns the kind of the frame
    Kind GetKind() const
    {
        return static_cast<Kind>(m_bytes[1]);
    }

    /// \returns the sender
    uint32_t GetSender() const
    {
        return NumberAt(4, 4);
    }

    /// \returns the receiver
    uint32_t GetReceiver() const
    {
        return NumberAt(8, 4);
    }

    /// \returns the bytes of both lives, the sender's and the one that it heard
    std::vector<uint8_t> GetLives() const;
    /// \returns the number of the first packet of a DATA frame, and of any other frame 0
    uint64_t GetFirst() const;
    /// \returns the kinds of the packets of a DATA frame, in order
    std::vector<PacketKind> GetPackets() const;
    /**
     * Tells whether the other frame says nothing that this one doesn't say later: a HELLO or an ACK
     * to the same receiver, or a DATA frame to it that begins with the same packet of the same
     * life.
     *
     * \param earlier a frame that the same node made before
     * \returns whether this frame can go in its place
     */
    bool Supersedes(const Frame& earlier) const;

  private:
    /**
     * Reads a number.
     *
     * \param at the offset of its first byte
     * \param size how many bytes it has
     * \returns the number, or 0 where the frame is shorter
     */
    uint64_t NumberAt(uint32_t at, uint32_t size) const;

    std::vector<uint8_t> m_bytes; //!< the bytes
};

/**
 * Prints a frame in some words.
 *
 * \param os the stream
 * \param frame the frame
 * \returns the stream
 */
std::ostream& operator<<(std::ostream& os, const Frame& frame);

} // namespace ns3::tora

#endif /* TORA_FRAME_H */
