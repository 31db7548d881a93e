// SPDX-FileCopyrightText: 2026 the Ginavoru authors
// SPDX-License-Identifier: GPL-2.0-only

#include "tora-frame.h"

#include "ns3/assert.h"
#include "ns3/ipv4-address.h"

namespace ns3::tora
{

namespace
{

/// The first byte of a frame that is sent whole.
constexpr uint8_t WHOLE = 0;

// Offsets in a frame
constexpr uint32_t LENGTH_AT = 2;      ///< the length of the payload
constexpr uint32_t LIFE_AT = 12;       ///< the life of the sender
constexpr uint32_t HEARD_AT = 20;      ///< the life of the receiver
constexpr uint32_t NUMBER_AT = 28;     ///< DATA: the first packet; ACK: the count
constexpr uint32_t COUNT_AT = 36;      ///< DATA: the acknowledged count
constexpr uint32_t PACKETS_AT_V1 = 44; ///< DATA of version 1: its packet
constexpr uint32_t PACKETS_AT_V2 = 48; ///< DATA of version 2: its packets

/// \returns how many bytes a packet of this kind has, or 0 where there is no such kind
uint32_t
PacketSize(uint8_t kind)
{
    constexpr uint32_t sizes[] = {0, 8, 32, 20};
    return kind <= Frame::CLR ? sizes[kind] : 0;
}

/// Writes a number of so many bytes in network byte order.
void
Write(std::vector<uint8_t>& bytes, uint64_t number, uint32_t size)
{
    for (uint32_t i = 0; i < size; i++)
    {
        bytes.push_back(number >> (8 * (size - 1 - i)));
    }
}

/// Writes a number in groups of 7 bits.
void
WriteGroups(std::vector<uint8_t>& bytes, uint64_t number)
{
    while (number >= 128)
    {
        bytes.push_back(number % 128 + 128);
        number /= 128;
    }
    bytes.push_back(number);
}

/// The bytes of a short form, as they are read.
struct Reader
{
    const uint8_t*& at;  //!< the next byte
    const uint8_t* end;  //!< the end of the bytes
    bool isShort{false}; //!< whether bytes were missing, or were no number of at most 64 bits

    /// \returns a byte
    uint8_t ReadByte()
    {
        isShort |= at == end;
        return isShort ? 0 : *at++;
    }

    /// \returns a number in groups of 7 bits
    uint64_t ReadGroups()
    {
        uint64_t number = 0;
        for (uint32_t shift = 0; shift < 63; shift += 7)
        {
            uint8_t group = ReadByte();
            number |= static_cast<uint64_t>(group % 128) << shift;
            if (group < 128)
            {
                return number;
            }
        }
        isShort = true;
        return 0;
    }

    /// Adds so many bytes to others.
    void Copy(std::vector<uint8_t>& to, std::size_t size)
    {
        isShort |= static_cast<std::size_t>(end - at) < size;
        if (!isShort)
        {
            to.insert(to.end(), at, at + size);
            at += size;
        }
    }

    /// Adds a packet of TORA to others.
    void CopyPacket(std::vector<uint8_t>& to)
    {
        uint32_t size = end - at < 2 ? 0 : PacketSize(at[1]);
        isShort |= size == 0;
        Copy(to, size);
    }
};

/// Adds what a frame has behind its lives, by the first byte of its short form.
void
ReadPayload(uint8_t first, Reader& reader, std::vector<uint8_t>& bytes)
{
    uint8_t kind = first % 16;
    reader.isShort |= kind < Frame::HELLO || kind > Frame::ACK;
    if (kind != Frame::HELLO)
    {
        Write(bytes, reader.ReadGroups(), 8);
    }
    if (kind != Frame::DATA)
    {
        return;
    }
    Write(bytes, reader.ReadGroups(), 8);
    uint32_t count = 1;
    if (first / 16 != 1)
    {
        count = reader.ReadByte();
        Write(bytes, count << 24, 4);
    }
    for (uint32_t done = 0; done < count && !reader.isShort; done++)
    {
        reader.CopyPacket(bytes);
    }
}

/// \returns a frame that was sent whole
std::optional<Frame>
ReadWhole(Reader reader)
{
    std::vector<uint8_t> bytes;
    reader.Copy(bytes, Frame::HEADER_SIZE);
    if (!reader.isShort)
    {
        reader.Copy(bytes, (bytes[LENGTH_AT] << 8) + bytes[LENGTH_AT + 1]);
    }
    return reader.isShort ? std::nullopt : std::optional<Frame>(Frame(std::move(bytes)));
}

} // namespace

Frame::Frame(std::vector<uint8_t> bytes)
    : m_bytes(std::move(bytes))
{
    NS_ASSERT_MSG(m_bytes.size() >= HEADER_SIZE, "a frame is too short");
}

std::optional<Frame>
Frame::ReadShort(uint32_t sender, const uint8_t*& at, const uint8_t* end)
{
    Reader reader{at, end};
    uint8_t first = reader.ReadByte();
    if (first == WHOLE)
    {
        return ReadWhole(reader);
    }
    std::vector<uint8_t> bytes;
    Write(bytes, first / 16, 1);
    Write(bytes, first % 16, 1);
    Write(bytes, 0, 2); // the length of the payload, which is not known yet
    Write(bytes, sender, 4);
    reader.Copy(bytes, 4);
    Write(bytes, reader.ReadGroups(), 8);
    Write(bytes, reader.ReadGroups(), 8);
    ReadPayload(first, reader, bytes);
    if (reader.isShort)
    {
        return std::nullopt;
    }
    bytes[LENGTH_AT] = (bytes.size() - HEADER_SIZE) >> 8;
    bytes[LENGTH_AT + 1] = bytes.size() - HEADER_SIZE;
    return Frame(std::move(bytes));
}

std::vector<uint8_t>
Frame::GetShort() const
{
    std::vector<uint8_t> form{static_cast<uint8_t>(16 * GetVersion() + GetKind() % 16)};
    Write(form, GetReceiver(), 4);
    WriteGroups(form, NumberAt(LIFE_AT, 8));
    WriteGroups(form, NumberAt(HEARD_AT, 8));
    if (GetKind() != HELLO)
    {
        WriteGroups(form, NumberAt(NUMBER_AT, 8));
    }
    if (GetKind() == DATA && m_bytes.size() > PACKETS_AT_V2)
    {
        WriteGroups(form, NumberAt(COUNT_AT, 8));
        uint32_t packets = GetVersion() == 1 ? PACKETS_AT_V1 : PACKETS_AT_V2;
        if (GetVersion() != 1)
        {
            form.push_back(m_bytes[PACKETS_AT_V1]);
        }
        form.insert(form.end(), m_bytes.begin() + packets, m_bytes.end());
    }
    const uint8_t* at = form.data();
    auto read = ReadShort(GetSender(), at, form.data() + form.size());
    if (form[0] == WHOLE || !read || read->m_bytes != m_bytes)
    {
        form.assign(1, WHOLE);
        form.insert(form.end(), m_bytes.begin(), m_bytes.end());
    }
    return form;
}

uint64_t
Frame::NumberAt(uint32_t at, uint32_t size) const
{
    uint64_t number = 0;
    for (uint32_t i = at; i < at + size && at + size <= m_bytes.size(); i++)
    {
        number = (number << 8) | m_bytes[i];
    }
    return number;
}

std::vector<uint8_t>
Frame::GetLives() const
{
    return {m_bytes.begin() + LIFE_AT, m_bytes.begin() + NUMBER_AT};
}

uint64_t
Frame::GetFirst() const
{
    return GetKind() == DATA ? NumberAt(NUMBER_AT, 8) : 0;
}

std::vector<Frame::PacketKind>
Frame::GetPackets() const
{
    std::vector<PacketKind> packets;
    uint32_t at = GetVersion() == 1 ? PACKETS_AT_V1 : PACKETS_AT_V2;
    while (GetKind() == DATA && at + 1 < m_bytes.size() && PacketSize(m_bytes[at + 1]) > 0)
    {
        packets.push_back(static_cast<PacketKind>(m_bytes[at + 1]));
        at += PacketSize(m_bytes[at + 1]);
    }
    return packets;
}

bool
Frame::Supersedes(const Frame& earlier) const
{
    if (GetReceiver() != earlier.GetReceiver() || GetKind() != earlier.GetKind() ||
        GetVersion() != earlier.GetVersion())
    {
        return false;
    }
    if (GetKind() != DATA)
    {
        return true;
    }
    return GetFirst() != 0 && GetFirst() == earlier.GetFirst() && GetLives() == earlier.GetLives();
}

std::ostream&
operator<<(std::ostream& os, const Frame& frame)
{
    const char* kinds[] = {"none", "HELLO", "DATA", "ACK"};
    const char* packets[] = {"", " QRY", " UPD", " CLR"};
    os << kinds[frame.GetKind() % 4] << " to " << Ipv4Address(frame.GetReceiver());
    for (auto packet : frame.GetPackets())
    {
        os << packets[packet];
    }
    return os;
}

} // namespace ns3::tora
