-- SPDX-FileCopyrightText: 2026 the Ginavoru authors
-- SPDX-License-Identifier: GPL-2.0-only

-- A Wireshark dissector for the broadcast packets of the ns-3 module (ns3/README.md, "On the air"): it spells each frame whole
-- and hands it to dev/tora.lua, where that is loaded, too.
--
--   tshark -X lua_script:dev/tora.lua -X lua_script:ns3/tora-ns3.lua -r FILE

local air = Proto("tora_air", "TORA broadcast packet")
local PORT, HEADER, WHOLE = 5047, 8, 0
local types = { [1] = "BEACON", [2] = "FRAMES" }
local packet_lengths = { [1] = 8, [2] = 32, [3] = 20 }

local field = {
  version = ProtoField.uint8("tora_air.version", "Version"),
  type = ProtoField.uint8("tora_air.type", "Type", base.DEC, types),
  count = ProtoField.uint16("tora_air.count", "Frames"),
  sender = ProtoField.ipv4("tora_air.sender", "Sender"),
  frame = ProtoField.bytes("tora_air.frame", "Frame in its short form"),
  error = ProtoField.string("tora_air.error", "Error"),
}
local fields = {}
for _, it in pairs(field) do fields[#fields + 1] = it end
air.fields = fields

-- Reads a number in groups of 7 bits: its 16 hexadecimal digits, and where it ends; nothing where the bytes end before.
local function groups(tvb, at)
  local number, shift = UInt64.new(0, 0), 0
  while at < tvb:len() and shift < 63 do
    local group = tvb(at, 1):uint()
    number = number + UInt64.new(group % 128, 0):lshift(shift)
    at, shift = at + 1, shift + 7
    if group < 128 then return number:tohex(16), at end
  end
  return nil
end

local function hex(tvb, at, length)
  return tvb(at, length):bytes():tohex()
end

-- Reads packets: their digits, and where they end; nothing where they aren't there.
local function packets(tvb, at, count)
  local digits = ""
  for _ = 1, count do
    local length = at + 2 <= tvb:len() and packet_lengths[tvb(at + 1, 1):uint()]
    if not length or at + length > tvb:len() then return nil end
    digits, at = digits .. hex(tvb, at, length), at + length
  end
  return digits, at
end

-- Reads what stands behind the lives: its digits, and where it ends.
local function payload(tvb, at, version, kind)
  if kind == 1 then return "", at end
  local first, count, digits
  first, at = groups(tvb, at)
  if not first or kind == 3 then return first, at end
  count, at = groups(tvb, at)
  if kind ~= 2 or not count then return nil end
  if version == 1 then
    digits, at = packets(tvb, at, 1)
    return digits and first .. count .. digits, at
  end
  if at >= tvb:len() then return nil end
  local many = tvb(at, 1):uint()
  digits, at = packets(tvb, at + 1, many)
  return digits and first .. count .. string.format("%02x000000", many) .. digits, at
end

-- Reads a frame: the digits of the whole frame, and where its short form ends; nothing where there is none.
local function frame(tvb, at, sender)
  if at >= tvb:len() then return nil end
  local first = tvb(at, 1):uint()
  if first == WHOLE then
    local length = at + 5 <= tvb:len() and 28 + tvb(at + 3, 2):uint()
    if not length or at + 1 + length > tvb:len() then return nil end
    return hex(tvb, at + 1, length), at + 1 + length
  end
  if at + 5 > tvb:len() then return nil end
  local version, kind = math.floor(first / 16), first % 16
  local receiver, life, heard, body = hex(tvb, at + 1, 4), nil, nil, nil
  life, at = groups(tvb, at + 5)
  if not life then return nil end
  heard, at = groups(tvb, at)
  if not heard then return nil end
  body, at = payload(tvb, at, version, kind)
  if not body then return nil end
  return string.format("%02x%02x%04x", version, kind, #body / 2) .. sender .. receiver .. life .. heard .. body, at
end

function air.dissector(tvb, pinfo, root)
  if tvb:len() < HEADER or tvb(0, 1):uint() ~= 1 then return 0 end
  local tree = root:add(air, tvb())
  local count = tvb(2, 2):uint()
  tree:add(field.version, tvb(0, 1))
  tree:add(field.type, tvb(1, 1))
  tree:add(field.count, tvb(2, 2))
  tree:add(field.sender, tvb(4, 4))
  local found, inner = pcall(Dissector.get, "tora")
  local at = HEADER
  for place = 1, count do
    local digits, behind = frame(tvb, at, hex(tvb, 4, 4))
    if not digits then
      tree:add(field.error, "frame " .. place .. " is none"):set_generated()
      break
    end
    local branch = tree:add(field.frame, tvb(at, behind - at))
    if found and inner then inner:call(ByteArray.new(digits):tvb("frame " .. place), pinfo, branch) end
    at = behind
  end
  pinfo.cols.protocol:set("TORA")
  pinfo.cols.info:set((types[tvb(1, 1):uint()] or "?") .. " of " .. tostring(tvb(4, 4):ipv4()) .. ", " .. count .. " frames")
  return at
end

DissectorTable.get("udp.port"):add(PORT, air)
