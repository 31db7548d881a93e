-- SPDX-FileCopyrightText: 2026 the Ginavoru authors
-- SPDX-License-Identifier: MIT

-- A Wireshark dissector for the datagrams of a TORA node: frames of both versions, and the packets in them, as
-- docs/formats.md ("Packets", "Frames", "Reading frames") has them.
--
--   tshark -X lua_script:dev/tora.lua -r FILE [-d udp.port==PORT,tora]
--
-- Wireshark loads it from the user's folder of Lua plugins ("Help", "About Wireshark", "Folders"), where a link to this file
-- is enough. UDP datagrams that spell a frame are known by their bytes, whatever the port. Those of a port that is decoded as
-- `tora` are all taken for frames: where one spells none, `tora.error` has the first test of docs/formats.md that holds.
-- `tora.summary` has one line of each frame; `tshark -X lua_script:dev/tora.lua -G fields` lists the fields.

local tora = Proto("tora", "TORA link frame")

local frame_kinds = { [1] = "HELLO", [2] = "DATA", [3] = "ACK" }
local packet_kinds = { [1] = "QRY", [2] = "UPD", [3] = "CLR" }
local packet_lengths = { [1] = 8, [2] = 32, [3] = 20 }
local frame_errors = { "Short", "Long", "Version", "Kind", "Length", "Id", "Life", "Number", "Packet", "Count" }
local packet_errors = { "Short", "Long", "Version", "Kind", "Reserved", "Height" }
local SHORT, LONG, VERSION, KIND, LENGTH, ID, LIFE, NUMBER, PACKET, COUNT = 1, 2, 3, 4, 5, 6, 7, 8, 9, 10
local RESERVED, HEIGHT = 5, 6

-- The greatest life, number, count and time tag: 2^62.
local MOST = UInt64.new(0, 0x40000000)
local ZERO = UInt64.new(0, 0)
local HEADER, MOST_PACKETS, LONGEST_DELTA = 28, 16, 1073741824

local field = {
  version = ProtoField.uint8("tora.version", "Version"),
  kind = ProtoField.uint8("tora.kind", "Kind", base.DEC, frame_kinds),
  length = ProtoField.uint16("tora.length", "Payload length"),
  sender = ProtoField.uint32("tora.sender", "Sender"),
  receiver = ProtoField.uint32("tora.receiver", "Receiver"),
  life = ProtoField.uint64("tora.life", "Life of the sender"),
  heard = ProtoField.uint64("tora.heard", "Life of the receiver that was heard"),
  number = ProtoField.uint64("tora.number", "Number of the first packet"),
  count = ProtoField.uint64("tora.count", "Acknowledged count"),
  packets = ProtoField.uint8("tora.packets", "Packets"),
  error = ProtoField.uint8("tora.error", "Error", base.DEC, frame_errors),
  summary = ProtoField.string("tora.summary", "Summary"),
  packet = ProtoField.bytes("tora.packet", "Packet"),
  packet_number = ProtoField.uint64("tora.packet.number", "Number"),
  packet_version = ProtoField.uint8("tora.packet.version", "Version"),
  packet_kind = ProtoField.uint8("tora.packet.kind", "Kind", base.DEC, packet_kinds),
  packet_error = ProtoField.uint8("tora.packet.error", "Error", base.DEC, packet_errors),
  destination = ProtoField.uint32("tora.packet.destination", "Destination"),
  tau = ProtoField.uint64("tora.packet.tau", "tau"),
  oid = ProtoField.uint32("tora.packet.oid", "oid"),
  r = ProtoField.uint8("tora.packet.r", "r"),
  delta = ProtoField.int32("tora.packet.delta", "delta"),
  id = ProtoField.uint32("tora.packet.id", "id"),
  height = ProtoField.string("tora.packet.height", "Height"),
}
local fields = {}
for _, it in pairs(field) do fields[#fields + 1] = it end
tora.fields = fields

local fault = ProtoExpert.new("tora.fault", "The bytes spell no frame", expert.group.MALFORMED, expert.severity.ERROR)
tora.experts = { fault }

-- ---- why bytes spell no packet, and no frame: the first test that holds

-- Whether a height is out of range, or is none of another node than the destination.
local function is_bad_height(tau, oid, r, delta, id, destination)
  local is_zero = tau == ZERO
  return tau > MOST or r > 1 or is_zero ~= (oid == 0)
    or delta < -LONGEST_DELTA or delta > LONGEST_DELTA
    or id == 0 or id == destination
    or (is_zero and r == 0 and delta < 1)
end

local function is_bad_value(tvb, at, kind)
  local destination = tvb(at + 4, 4):uint()
  if destination == 0 then return true end
  if kind == 1 then return false end
  local tau, oid = tvb(at + 8, 8):uint64(), tvb(at + 16, 4):uint()
  if kind == 3 then return tau == ZERO or tau > MOST or oid == 0 end
  local r, delta, id = tvb(at + 20, 1):uint(), tvb(at + 24, 4):int(), tvb(at + 28, 4):uint()
  return is_bad_height(tau, oid, r, delta, id, destination)
end

-- The error of `length` bytes from `at` on, which may be none.
local function packet_fault(tvb, at, length)
  if length < 2 then return SHORT end
  if tvb(at, 1):uint() ~= 1 then return VERSION end
  local kind = tvb(at + 1, 1):uint()
  local wanted = packet_lengths[kind]
  if not wanted then return KIND end
  if length < wanted then return SHORT end
  if length > wanted then return LONG end
  if tvb(at + 2, 2):uint() ~= 0 or (kind == 2 and tvb(at + 21, 3):uint() ~= 0) then return RESERVED end
  if is_bad_value(tvb, at, kind) then return HEIGHT end
  return nil
end

-- How many of the bytes are the first packet's, in version 2.
local function first_length(tvb, at, length)
  local wanted = length >= 2 and tvb(at, 1):uint() == 1 and packet_lengths[tvb(at + 1, 1):uint()]
  return wanted and math.min(wanted, length) or length
end

local function is_payload_length(version, kind, length)
  if kind == 1 then return length == 0 end
  if kind == 3 then return length == 8 end
  if version == 1 then return length == 24 or length == 36 or length == 48 end
  return length >= 28 and length <= 532
end

local function layout_fault(tvb)
  if tvb:len() < HEADER then return SHORT end
  local version, kind, length = tvb(0, 1):uint(), tvb(1, 1):uint(), tvb(2, 2):uint()
  if version ~= 1 and version ~= 2 then return VERSION end
  if not frame_kinds[kind] then return KIND end
  if not is_payload_length(version, kind, length) then return LENGTH end
  if tvb:len() < HEADER + length then return SHORT end
  if tvb:len() > HEADER + length then return LONG end
  return nil
end

local function header_fault(tvb)
  local kind, sender, receiver = tvb(1, 1):uint(), tvb(4, 4):uint(), tvb(8, 4):uint()
  local life, heard = tvb(12, 8):uint64(), tvb(20, 8):uint64()
  if sender == 0 or receiver == 0 or sender == receiver then return ID end
  if life == ZERO or life > MOST or heard > MOST or (kind ~= 1 and heard == ZERO) then return LIFE end
  return nil
end

-- The packets of a DATA frame: for each its place, its length and its error. The second is the frame's error.
local function packets_in(tvb)
  if tvb(0, 1):uint() == 1 then
    local length = tvb:len() - 44
    local error = packet_fault(tvb, 44, length)
    return { { at = 44, length = length, error = error } }, error and PACKET
  end
  local count = tvb(44, 1):uint()
  if count == 0 or count > MOST_PACKETS or tvb(45, 3):uint() ~= 0 or tvb(28, 8):uint64() + UInt64.new(count - 1, 0) > MOST then
    return {}, COUNT
  end
  local found, at = {}, 48
  for _ = 1, count do
    local length = first_length(tvb, at, tvb:len() - at)
    local error = packet_fault(tvb, at, length)
    found[#found + 1] = { at = at, length = length, error = error }
    if error then return found, PACKET end
    at = at + length
  end
  if at < tvb:len() then
    found[#found + 1] = { at = at, length = tvb:len() - at, error = LONG }
    return found, PACKET
  end
  return found, nil
end

-- The error of a datagram, which may be none, and the packets that were found.
local function frame_fault(tvb)
  local error = layout_fault(tvb) or header_fault(tvb)
  if error then return error, {} end
  local kind = tvb(1, 1):uint()
  if kind == 1 then return nil, {} end
  if kind == 3 then return tvb(28, 8):uint64() > MOST and NUMBER or nil, {} end
  local number, count = tvb(28, 8):uint64(), tvb(36, 8):uint64()
  if number == ZERO or number > MOST or count > MOST then return NUMBER, {} end
  local packets, packet_error = packets_in(tvb)
  return packet_error or nil, packets
end

-- ---- what is shown

-- Shows a packet without an error, and answers its words.
local function show_packet(tvb, at, tree)
  local kind, destination = tvb(at + 1, 1):uint(), tvb(at + 4, 4):uint()
  tree:add(field.packet_version, tvb(at, 1))
  tree:add(field.packet_kind, tvb(at + 1, 1))
  tree:add(field.destination, tvb(at + 4, 4))
  local words = packet_kinds[kind] .. " " .. destination
  if kind == 1 then return words end
  local tau, oid = tvb(at + 8, 8):uint64(), tvb(at + 16, 4):uint()
  tree:add(field.tau, tvb(at + 8, 8))
  tree:add(field.oid, tvb(at + 16, 4))
  if kind == 3 then return words .. " (" .. tostring(tau) .. "," .. oid .. ")" end
  tree:add(field.r, tvb(at + 20, 1))
  tree:add(field.delta, tvb(at + 24, 4))
  tree:add(field.id, tvb(at + 28, 4))
  local parts = { tostring(tau), oid, tvb(at + 20, 1):uint(), tvb(at + 24, 4):int(), tvb(at + 28, 4):uint() }
  local height = "(" .. table.concat(parts, ",") .. ")"
  tree:add(field.height, tvb(at + 8, 24), height):set_generated()
  return words .. " " .. height
end

-- Shows the packets that were found, and answers their words.
local function show_packets(tvb, packets, tree)
  local words = {}
  for place, it in ipairs(packets) do
    local branch = it.length > 0 and tree:add(field.packet, tvb(it.at, it.length)) or tree
    if it.error then
      words[place] = "no packet: " .. it.error .. " " .. packet_errors[it.error]
      branch:add(field.packet_error, it.error):set_generated()
    else
      branch:add(field.packet_number, tvb(28, 8):uint64() + UInt64.new(place - 1, 0)):set_generated()
      words[place] = show_packet(tvb, it.at, branch)
    end
    if it.length > 0 then branch:set_text("Packet: " .. words[place]) end
  end
  return table.concat(words, ", ")
end

-- Shows the header of a frame, and answers its words.
local function show_header(tvb, tree)
  tree:add(field.version, tvb(0, 1))
  tree:add(field.kind, tvb(1, 1))
  tree:add(field.length, tvb(2, 2))
  tree:add(field.sender, tvb(4, 4))
  tree:add(field.receiver, tvb(8, 4))
  tree:add(field.life, tvb(12, 8))
  tree:add(field.heard, tvb(20, 8))
  local lives = "{" .. tostring(tvb(12, 8):uint64()) .. "," .. tostring(tvb(20, 8):uint64()) .. "}"
  local kind = frame_kinds[tvb(1, 1):uint()] or "?"
  return "v" .. tvb(0, 1):uint() .. " " .. kind .. " " .. tvb(4, 4):uint() .. " to " .. tvb(8, 4):uint() .. " " .. lives
end

-- Shows what stands behind the header, and answers its words.
local function show_body(tvb, packets, tree)
  local kind = tvb(1, 1):uint()
  if kind == 1 then return "" end
  if kind == 3 then
    tree:add(field.count, tvb(28, 8))
    return " count " .. tostring(tvb(28, 8):uint64())
  end
  tree:add(field.number, tvb(28, 8))
  tree:add(field.count, tvb(36, 8))
  if tvb(0, 1):uint() == 2 then tree:add(field.packets, tvb(44, 1)) end
  local words = " number " .. tostring(tvb(28, 8):uint64()) .. " count " .. tostring(tvb(36, 8):uint64())
  if #packets == 0 then return words end
  return words .. ": " .. show_packets(tvb, packets, tree)
end

-- Shows a datagram whose error, if any, and packets are known.
local function show(tvb, pinfo, root, error, packets)
  local tree = root:add(tora, tvb())
  local words = ""
  if tvb:len() >= HEADER then words = show_header(tvb, tree) end
  if not layout_fault(tvb) then words = words .. show_body(tvb, packets, tree) end
  if error then
    local cause = "no frame: " .. error .. " " .. frame_errors[error]
    words = words == "" and cause or words .. ", " .. cause
    tree:add(field.error, error):set_generated()
    tree:add_proto_expert_info(fault, cause)
  end
  tree:add(field.summary, words):set_generated()
  tree:append_text(": " .. words)
  pinfo.cols.protocol:set("TORA")
  pinfo.cols.info:set(words)
end

-- A datagram of a port that is decoded as `tora`.
function tora.dissector(tvb, pinfo, root)
  if tvb:len() == 0 then return 0 end
  local error, packets = frame_fault(tvb)
  show(tvb, pinfo, root, error, packets)
  return tvb:len()
end

-- Any other UDP datagram: it is one of these where it spells a frame.
local function dissect_by_bytes(tvb, pinfo, root)
  local error, packets = frame_fault(tvb)
  if error then return false end
  show(tvb, pinfo, root, error, packets)
  return true
end

tora:register_heuristic("udp", dissect_by_bytes)
DissectorTable.get("udp.port"):add_for_decode_as(tora)
