// SPDX-FileCopyrightText: 2026 the Ginavoru authors
// SPDX-License-Identifier: GPL-2.0-only

#ifndef TORA_HEADER_H
#define TORA_HEADER_H

#include "tora-frame.h"

#include "ns3/header.h"

#include <vector>

namespace ns3::tora
{

/**
 * \ingroup tora
 * \brief What a node broadcasts: its frames for several neighbours, or nothing but that it is
 * there.
 *
 * Its bytes, in network byte order: the version of this format (1 byte), the type (1), how many
 * frames there are (2), the sender (4), and the frames in their short form, one after another.
 * Packet::RemoveHeader() returns 0 where the bytes are not those of such a packet.
 */
class ToraHeader : public Header
{
  public:
    /// The types of packets.
    enum Type : uint8_t
    {
        BEACON = 1, //!< without frames
        FRAMES = 2  //!< with frames
    };

    /// The version of this format.
    static constexpr uint8_t VERSION = 1;
    /// Bytes before the frames.
    static constexpr uint32_t FIXED_SIZE = 8;
    /// \param sender the node that broadcasts
    ToraHeader(uint32_t sender = 0);

    /// \param frame a frame that is added
    void AddFrame(const Frame& frame);

    /// \returns the type: BEACON where there are no frames
    Type GetType() const
    {
        return m_frames.empty() ? BEACON : FRAMES;
    }

    /// \returns the node that broadcasts
    uint32_t GetSender() const
    {
        return m_sender;
    }

    /// \returns the frames
    const std::vector<Frame>& GetFrames() const
    {
        return m_frames;
    }

    /// \brief Get the type ID.
    /// \return the object TypeId
    static TypeId GetTypeId();
    TypeId GetInstanceTypeId() const override;
    uint32_t GetSerializedSize() const override;
    void Serialize(Buffer::Iterator start) const override;
    uint32_t Deserialize(Buffer::Iterator start) override;
    void Print(std::ostream& os) const override;

  private:
    uint32_t m_sender;            //!< the node that broadcasts
    std::vector<Frame> m_frames;  //!< the frames
    std::vector<uint8_t> m_forms; //!< their short forms
};

} // namespace ns3::tora

#endif /* TORA_HEADER_H */
