// SPDX-FileCopyrightText: 2026 the Ginavoru authors
// SPDX-License-Identifier: GPL-2.0-only

/**
 * \file
 * \ingroup tora
 * The suite "tora-frame": frames and packets on the air.
 */
#include "ns3/packet.h"
#include "ns3/test.h"
#include "ns3/tora-frame.h"
#include "ns3/tora-header.h"

#include <sstream>

using namespace ns3;

namespace
{

/**
 * Reads hexadecimal digits.
 *
 * \param text digits and blanks
 * \returns the bytes
 */
std::vector<uint8_t>
Bytes(const std::string& text)
{
    std::vector<uint8_t> bytes;
    std::string digits;
    for (char c : text)
    {
        if (c != ' ')
        {
            digits += c;
        }
        if (digits.size() == 2)
        {
            bytes.push_back(std::stoi(digits, nullptr, 16));
            digits.clear();
        }
    }
    return bytes;
}

// Frames
/// A HELLO of version 1.
const std::string HELLO = "01010000 00000001 00000002 0000000000000005 0000000000000000";
/// A DATA frame of version 1.
const std::string DATA_V1 = "01020018 00000001 00000002 0000000000000005 0000000000000009 "
                            "0000000000000001 0000000000000000 0101000000000004";
/// An ACK of version 1.
const std::string ACK = "01030008 00000002 00000001 0000000000000009 0000000000000005 "
                        "0000000000000001";
/// A DATA frame of version 2, with two packets.
const std::string DATA_V2 =
    "02020030 00000001 00000002 0000000000000005 0000000000000009 0000000000000001 "
    "0000000000000000 02000000 0101000000000004 0103000000000004 0000000000000007 00000003";

} // namespace

/**
 * \ingroup tora
 * \brief Frames are looked at as their format has them.
 */
class ToraFrameTestCase : public TestCase
{
  public:
    ToraFrameTestCase()
        : TestCase("Frames are looked at as their format has them")
    {
    }

  private:
    /**
     * Looks at the short form of a frame.
     *
     * \param frame the frame, in hexadecimal digits
     * \param form its short form
     */
    void Short(const std::string& frame, const std::string& form)
    {
        std::vector<uint8_t> bytes = tora::Frame(Bytes(frame)).GetShort();
        NS_TEST_EXPECT_MSG_EQ((bytes == Bytes(form)), true, "short form of " << frame);
        const uint8_t* at = bytes.data();
        uint32_t sender = Bytes(frame)[7];
        auto read = tora::Frame::ReadShort(sender, at, bytes.data() + bytes.size());
        NS_TEST_ASSERT_MSG_EQ(read.has_value(), true, "it is read");
        NS_TEST_EXPECT_MSG_EQ((read->GetBytes() == Bytes(frame)), true, "as it was");
        NS_TEST_EXPECT_MSG_EQ((at == bytes.data() + bytes.size()), true, "to its end");
        for (std::size_t size = 0; size < bytes.size(); size++)
        {
            at = bytes.data();
            read = tora::Frame::ReadShort(sender, at, bytes.data() + size);
            NS_TEST_EXPECT_MSG_EQ(read.has_value(), false, size << " bytes are too few");
        }
    }

    /**
     * Tells which frames go in the place of others.
     *
     * \param hello a HELLO
     * \param data a DATA frame of version 2
     */
    void Supersede(const tora::Frame& hello, const tora::Frame& data)
    {
        std::vector<uint8_t> second = Bytes(DATA_V2);
        second[35] = 2;
        std::vector<uint8_t> other = Bytes(DATA_V2);
        other[19] = 6;
        std::vector<uint8_t> elsewhere = Bytes(HELLO);
        elsewhere[11] = 3;
        NS_TEST_EXPECT_MSG_EQ(hello.Supersedes(hello), true, "a HELLO of later");
        NS_TEST_EXPECT_MSG_EQ(hello.Supersedes(tora::Frame(elsewhere)), false, "of another");
        NS_TEST_EXPECT_MSG_EQ(data.Supersedes(data), true, "the same packets once more");
        NS_TEST_EXPECT_MSG_EQ(data.Supersedes(tora::Frame(second)), false, "other packets");
        NS_TEST_EXPECT_MSG_EQ(data.Supersedes(tora::Frame(other)), false, "another life");
        NS_TEST_EXPECT_MSG_EQ(data.Supersedes(hello), false, "another kind");
    }

    void DoRun() override
    {
        tora::Frame hello(Bytes(HELLO));
        NS_TEST_EXPECT_MSG_EQ(hello.GetKind(), tora::Frame::HELLO, "kind");
        NS_TEST_EXPECT_MSG_EQ(+hello.GetVersion(), 1, "version");
        NS_TEST_EXPECT_MSG_EQ(hello.GetSender(), 1, "sender");
        NS_TEST_EXPECT_MSG_EQ(hello.GetReceiver(), 2, "receiver");
        NS_TEST_EXPECT_MSG_EQ(hello.GetFirst(), 0, "a HELLO has no number");
        NS_TEST_EXPECT_MSG_EQ(hello.GetBytes().size(), 28, "length");
        tora::Frame data(Bytes(DATA_V2));
        NS_TEST_EXPECT_MSG_EQ(data.GetFirst(), 1, "the number of the first packet");
        std::vector<tora::Frame::PacketKind> packets{tora::Frame::QRY, tora::Frame::CLR};
        NS_TEST_EXPECT_MSG_EQ((data.GetPackets() == packets), true, "packets of version 2");
        std::vector<tora::Frame::PacketKind> query{tora::Frame::QRY};
        NS_TEST_EXPECT_MSG_EQ((tora::Frame(Bytes(DATA_V1)).GetPackets() == query),
                              true,
                              "packets of version 1");

        Supersede(hello, data);
        Short(HELLO, "11 00000002 05 00");
        Short(DATA_V1, "12 00000002 05 09 01 00 0101000000000004");
        Short(ACK, "13 00000001 09 05 01");
        Short(DATA_V2,
              "22 00000002 05 09 01 00 02 0101000000000004 "
              "0103000000000004 0000000000000007 00000003");
        Short("02010000 00000001 00000002 000000000000012c 4000000000000000",
              "21 00000002 ac02 808080808080808040");
        // What the short form does not say makes a frame whole: a reserved byte, an unknown kind.
        std::vector<uint8_t> odd = Bytes(DATA_V2);
        odd[45] = 1;
        NS_TEST_EXPECT_MSG_EQ(+tora::Frame(odd).GetShort()[0], 0, "a reserved byte");
        NS_TEST_EXPECT_MSG_EQ(tora::Frame(odd).GetShort().size(), odd.size() + 1, "whole");
        odd = Bytes(HELLO);
        odd[1] = 4;
        NS_TEST_EXPECT_MSG_EQ(+tora::Frame(odd).GetShort()[0], 0, "an unknown kind");
    }
};

/**
 * \ingroup tora
 * \brief A header is read as it was written, and other bytes are none.
 */
class ToraHeaderTestCase : public TestCase
{
  public:
    ToraHeaderTestCase()
        : TestCase("A header is read as it was written")
    {
    }

  private:
    /**
     * Reads a header.
     *
     * \param text hexadecimal digits
     * \returns whether they are the bytes of one
     */
    bool IsValid(const std::string& text) const
    {
        std::vector<uint8_t> bytes = Bytes(text);
        Ptr<Packet> packet = Create<Packet>(bytes.data(), bytes.size());
        tora::ToraHeader header;
        return packet->RemoveHeader(header) > 0;
    }

    void DoRun() override
    {
        tora::ToraHeader header(1);
        NS_TEST_EXPECT_MSG_EQ(header.GetType(), tora::ToraHeader::BEACON, "no frames");
        header.AddFrame(tora::Frame(Bytes(HELLO)));
        header.AddFrame(tora::Frame(Bytes(DATA_V2)));
        NS_TEST_EXPECT_MSG_EQ(header.GetType(), tora::ToraHeader::FRAMES, "frames");
        Ptr<Packet> packet = Create<Packet>();
        packet->AddHeader(header);
        NS_TEST_EXPECT_MSG_EQ(packet->GetSize(), 8 + 7 + 38, "length");
        std::vector<uint8_t> bytes(8);
        packet->CopyData(bytes.data(), 8);
        NS_TEST_EXPECT_MSG_EQ((bytes == Bytes("01020002 00000001")), true, "bytes");

        tora::ToraHeader read;
        NS_TEST_EXPECT_MSG_EQ(packet->RemoveHeader(read), 8 + 7 + 38, "it is a header");
        NS_TEST_EXPECT_MSG_EQ(read.GetSender(), 1, "sender");
        NS_TEST_ASSERT_MSG_EQ(read.GetFrames().size(), 2, "frames");
        NS_TEST_EXPECT_MSG_EQ((read.GetFrames()[1].GetBytes() == Bytes(DATA_V2)), true, "bytes");
        std::ostringstream os;
        read.Print(os);
        NS_TEST_EXPECT_MSG_EQ(os.str(),
                              "FRAMES of 0.0.0.1; HELLO to 0.0.0.2; DATA to 0.0.0.2 QRY CLR",
                              "text");

        NS_TEST_EXPECT_MSG_EQ(IsValid("01010000 0a010101"), true, "a beacon");
        NS_TEST_EXPECT_MSG_EQ(IsValid("01010000 0a0101"), false, "short");
        NS_TEST_EXPECT_MSG_EQ(IsValid("02010000 0a010101"), false, "another version");
        NS_TEST_EXPECT_MSG_EQ(IsValid("01020000 0a010101"), false, "no frames");
        const std::string hello = "11 00000002 05 00";
        NS_TEST_EXPECT_MSG_EQ(IsValid("01020001 00000001" + hello), true, "a HELLO");
        NS_TEST_EXPECT_MSG_EQ(IsValid("01010001 00000001" + hello), false, "of no type");
        NS_TEST_EXPECT_MSG_EQ(IsValid("01020002 00000001" + hello), false, "one missing");
        NS_TEST_EXPECT_MSG_EQ(IsValid("01020001 00000001 00" + HELLO), true, "whole");
        NS_TEST_EXPECT_MSG_EQ(IsValid("01020001 00000001 00 0101ffff" + HELLO.substr(8)),
                              false,
                              "a frame longer than the packet");
    }
};

/**
 * \ingroup tora
 * \brief Frames and packets on the air.
 */
class ToraFrameTestSuite : public TestSuite
{
  public:
    ToraFrameTestSuite()
        : TestSuite("tora-frame", Type::UNIT)
    {
        AddTestCase(new ToraFrameTestCase);
        AddTestCase(new ToraHeaderTestCase);
    }
};

static ToraFrameTestSuite g_toraFrameTestSuite; //!< the suite
