// SPDX-FileCopyrightText: 2026 the Ginavoru authors
// SPDX-License-Identifier: GPL-2.0-only

#include "tora-header.h"

#include "ns3/ipv4-address.h"

namespace ns3::tora
{

NS_OBJECT_ENSURE_REGISTERED(ToraHeader);

ToraHeader::ToraHeader(uint32_t sender)
    : m_sender(sender)
{
}

void
ToraHeader::AddFrame(const Frame& frame)
{
    std::vector<uint8_t> form = frame.GetShort();
    m_forms.insert(m_forms.end(), form.begin(), form.end());
    m_frames.push_back(frame);
}

TypeId
ToraHeader::GetTypeId()
{
    static TypeId tid = TypeId("ns3::tora::ToraHeader")
                            .SetParent<Header>()
                            .SetGroupName("Tora")
                            .AddConstructor<ToraHeader>();
    return tid;
}

TypeId
ToraHeader::GetInstanceTypeId() const
{
    return GetTypeId();
}

uint32_t
ToraHeader::GetSerializedSize() const
{
    return FIXED_SIZE + m_forms.size();
}

void
ToraHeader::Serialize(Buffer::Iterator start) const
{
    start.WriteU8(VERSION);
    start.WriteU8(GetType());
    start.WriteHtonU16(m_frames.size());
    start.WriteHtonU32(m_sender);
    start.Write(m_forms.data(), m_forms.size());
}

uint32_t
ToraHeader::Deserialize(Buffer::Iterator start)
{
    m_frames.clear();
    m_forms.clear();
    if (start.GetRemainingSize() < FIXED_SIZE)
    {
        return 0;
    }
    uint8_t version = start.ReadU8();
    uint8_t type = start.ReadU8();
    uint16_t count = start.ReadNtohU16();
    m_sender = start.ReadNtohU32();
    if (version != VERSION || type != (count == 0 ? BEACON : FRAMES))
    {
        return 0;
    }
    std::vector<uint8_t> bytes(start.GetRemainingSize());
    start.Read(bytes.data(), bytes.size());
    const uint8_t* at = bytes.data();
    for (uint16_t done = 0; done < count; done++)
    {
        auto frame = Frame::ReadShort(m_sender, at, bytes.data() + bytes.size());
        if (!frame)
        {
            return 0;
        }
        m_frames.push_back(*std::move(frame));
    }
    m_forms.assign(static_cast<const uint8_t*>(bytes.data()), at);
    return FIXED_SIZE + m_forms.size();
}

void
ToraHeader::Print(std::ostream& os) const
{
    os << (GetType() == BEACON ? "BEACON" : "FRAMES") << " of " << Ipv4Address(m_sender);
    for (const auto& frame : m_frames)
    {
        os << "; " << frame;
    }
}

} // namespace ns3::tora
