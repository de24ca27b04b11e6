-- Dissects in Wireshark what is this project's own in a capture of tools/to_pcapng.py: the messages of the profile (F1AP, E1AP, XnAP, path switch) and
-- the tokens of RRC, by the profile's module as a table; PDCP in packets of GTP-U and on the radio; whose a packet is, by its comment.
-- GTP-U and NR-U frames are read by Wireshark's own dissectors, and what is shown here stands after them. docs/lab.md says how to install this.
-- Nothing here is proved. Octets that are no value of the module are said to be malformed, without the program's reason.

local folder = debug.getinfo(1, "S").source:match("^@(.*[/\\])") or ""
local profile = dofile(folder .. "splitgnb_profile.lua")

local CONTAINED = { Container = "RrcToken" } -- a container has a token; that isn't in the module
local OUTCOMES = { "initiatingMessage", "successfulOutcome", "unsuccessfulOutcome" }
local CRITICALITIES = { [0] = "reject", "ignore", "notify" }
local PORTS = {
  [38472] = { "splitgnb_f1ap", "F1AP of the SplitGNB profile", "F1AP-PDU" },
  [38462] = { "splitgnb_e1ap", "E1AP of the SplitGNB profile", "E1AP-PDU" },
  [38422] = { "splitgnb_xnap", "XnAP of the SplitGNB profile", "XnAP-PDU" },
  [38412] = { "splitgnb_n2", "path switch of the SplitGNB profile", "Core-PDU" },
  [49153] = { "splitgnb_rrc", "RRC tokens of the SplitGNB profile", "RrcToken" },
}
local UU_PORT, GTPU_PORT = 49152, 2152
local END_MARKER = 254
local NR_RAN_CONTAINER, PDCP_PDU_NUMBER, LONG_PDCP_PDU_NUMBER = 0x84, 0xC0, 0x82

-- What a G-PDU carries is what a script offers, which need not be IP: Wireshark's guess by the first four bits is switched off, for this session alone, and what is
-- IP by its lengths is read below. Before Wireshark 4.0 there is no such call: docs/lab.md has the option.
if set_preference then set_preference("gtp.dissect_tpdu_as", "none") end

local splitgnb = Proto("splitgnb", "SplitGNB profile")
splitgnb.prefs.sn_bits = Pref.enum("Length of PDCP SNs where a capture doesn't say it", 12, "bits of a PDCP SN",
  { { 1, "12 bits", 12 }, { 2, "18 bits", 18 } }, false)
local malformed = ProtoExpert.new("splitgnb.malformed", "octets that are no value of the profile", expert.group.MALFORMED, expert.severity.ERROR)
splitgnb.experts = { malformed }

-- ---- fields: those written here, and one for each element and component of the module

local fields = {
  message = ProtoField.string("splitgnb.message", "message"),
  outcome = ProtoField.string("splitgnb.outcome", "outcome"),
  procedure = ProtoField.uint8("splitgnb.procedure_code", "procedure code"),
  criticality = ProtoField.string("splitgnb.criticality", "criticality"),
  id = ProtoField.uint16("splitgnb.ie_id", "id of an information element"),
  raw = ProtoField.bytes("splitgnb.raw", "raw octets"),
  sn = ProtoField.uint32("splitgnb.pdcp.sn", "PDCP SN"),
  fmc = ProtoField.uint32("splitgnb.pdcp.fmc", "first missing COUNT"),
  bitmap = ProtoField.bytes("splitgnb.pdcp.bitmap", "bitmap"),
  packet = ProtoField.bytes("splitgnb.packet", "packet"),
  link = ProtoField.string("splitgnb.link", "link"),
  direction = ProtoField.string("splitgnb.direction", "direction"),
  count = ProtoField.uint32("splitgnb.count", "COUNT"),
  event = ProtoField.uint32("splitgnb.event", "event of the script"),
  line = ProtoField.uint32("splitgnb.line", "line of the transcript"),
  injected = ProtoField.bool("splitgnb.injected", "injected by the script"),
}

local function resolved(form)
  while form.form == "name" do form = profile.types[form.name] end
  return form
end

local function names_by_index(form)
  local names = {}
  for i, name in ipairs(form.names) do names[i - 1] = name end
  return names
end

local MAKERS = {
  boolean = function(abbreviation, name) return ProtoField.bool(abbreviation, name) end,
  integer = function(abbreviation, name) return ProtoField.uint32(abbreviation, name) end,
  enumerated = function(abbreviation, name, form)
    return ProtoField.uint8(abbreviation, name, base.DEC, names_by_index(form))
  end,
  octets = function(abbreviation, name) return ProtoField.bytes(abbreviation, name) end,
}

-- the name of a field as Wireshark's own are written: forwardDown is forward_down
local function written(name)
  return (name:gsub("%u", function(letter) return "_" .. letter:lower() end))
end

local function make_field(name, form)
  local maker = MAKERS[resolved(form).form] or function(abbreviation, text) return ProtoField.string(abbreviation, text) end
  fields["value " .. name] = fields["value " .. name] or maker("splitgnb." .. written(name), name, resolved(form))
end

for _, form in pairs(profile.types) do
  for _, row in ipairs(form.form == "elements" and form.rows or {}) do
    make_field(profile.elements[row.id] or tostring(row.id), { form = "name", name = row.type })
  end
  for _, parts in ipairs({ form.root or {}, form.additions or {} }) do
    for _, part in ipairs(parts) do make_field(part.name, part.type) end
  end
end

do
  local listed = {}
  for _, field in pairs(fields) do listed[#listed + 1] = field end
  splitgnb.fields = listed
end

-- ---- bits of an encoding (ITU-T X.691, aligned)

local Bits = {}
Bits.__index = Bits

function Bits.new(tvb, first, count)
  return setmetatable({ tvb = tvb, at = 8 * first, stop = 8 * (first + count) }, Bits)
end

local function fail(what) error({ malformed = what }, 0) end

-- at most 32 bits
function Bits:take(width)
  if width == 0 then return 0 end
  if self.at + width > self.stop then fail("truncated at bit " .. self.at) end
  local octet = math.floor(self.at / 8)
  local within = self.at % 8
  local value = 0
  for bit = 0, width - 1 do
    local place = within + bit
    value = 2 * value + self.tvb(octet + math.floor(place / 8), 1):bitfield(place % 8, 1)
  end
  self.at = self.at + width
  return value
end

function Bits:pad()
  if self:take(-self.at % 8) ~= 0 then fail("a pad bit is 1 before bit " .. self.at) end
end

function Bits:octet()
  return math.floor(self.at / 8)
end

function Bits:skip(count)
  if self.at + 8 * count > self.stop then fail("truncated at bit " .. self.at) end
  local first = self:octet()
  self.at = self.at + 8 * count
  return first
end

local function width_of(span)
  local width = 0
  while 2 ^ width < span do width = width + 1 end
  return width
end

local function constrained(bits, low, high)
  local span, value = high - low + 1, 0
  if span == 1 then return low end
  if span <= 255 then
    value = bits:take(width_of(span))
  elseif span <= 65536 then
    bits:pad()
    value = bits:take(span == 256 and 8 or 16)
  else
    local count = constrained(bits, 1, math.floor((width_of(span) + 7) / 8))
    bits:pad()
    for _ = 1, count do value = value * 256 + bits:take(8) end
  end
  if value >= span then fail("a number out of its range before bit " .. bits.at) end
  return low + value
end

local function small_number(bits)
  if bits:take(1) == 1 then fail("a small number above 63 before bit " .. bits.at) end
  return bits:take(6)
end

local function general_length(bits)
  bits:pad()
  local first = bits:take(8)
  if first < 128 then return first end
  if first < 192 then return (first - 128) * 256 + bits:take(8) end
  fail("a length in fragments before bit " .. bits.at)
end

local function length(bits, size)
  if size == nil or (size.extensible and bits:take(1) == 1) then return general_length(bits) end
  return constrained(bits, size.low, size.high)
end

-- an open type: the octets of a complete encoding
local function open_type(bits)
  local count = general_length(bits)
  if count == 0 then fail("an empty open type before bit " .. bits.at) end
  return Bits.new(bits.tvb, bits:skip(count), count)
end

-- ---- values, by the table

local decode

local function range_from(bits, begin)
  local first = math.floor(begin / 8)
  return bits.tvb(first, math.max(1, math.ceil(bits.at / 8) - first))
end

local function whole(bits, form, tree, name, told)
  local empty = bits.at
  decode(bits, form, tree, name, told)
  if bits.at == empty then bits:skip(1) end
  bits:pad()
  if bits.at ~= bits.stop then fail("octets are left from bit " .. bits.at .. " on") end
end

-- a tree of the values within a value
local function within(bits, tree, name, fill)
  local begin = bits.at
  local item = tree:add(splitgnb, bits.tvb(math.min(math.floor(begin / 8), bits.tvb:len() - 1), 1), name)
  item:set_text(name)
  fill(item)
  item:set_len(math.max(1, math.ceil(bits.at / 8) - math.floor(begin / 8)))
end

local function say_malformed(item, problem)
  item:add_proto_expert_info(malformed, type(problem) == "table" and problem.malformed or tostring(problem))
end

-- the token of a container; where its octets are none, the message around it is read on
local function decode_token(bits, form, first, count, tree, told)
  local contained = CONTAINED[form.name]
  if not contained or count == 0 then return end
  local item = tree:add(splitgnb, bits.tvb(first, count), contained)
  item:set_text(contained)
  local ok, problem = pcall(whole, Bits.new(bits.tvb, first, count), { form = "name", name = contained }, item, contained, told)
  if not ok then say_malformed(item, problem) end
end

local function add_raw(inner, tree)
  tree:add(fields.raw, inner.tvb(inner:octet(), (inner.stop - inner.at) / 8))
end

-- an alternative past the root, whose type isn't known
local function add_past_root(bits, tree)
  tree:append_text(": alternative " .. small_number(bits) .. " past the root")
  add_raw(open_type(bits), tree)
end

local DECODERS = {}

function DECODERS.name(bits, form, tree, name, told)
  local target = profile.types[form.name]
  if target.form == "octets" then
    local count = length(bits, target.size)
    bits:pad()
    local first = bits:skip(count)
    tree:add(fields["value " .. name], bits.tvb(first, count))
    decode_token(bits, form, first, count, tree, told)
    return
  end
  decode(bits, target, tree, name, told)
end

function DECODERS.boolean(bits, _, tree, name)
  local begin, value = bits.at, bits:take(1)
  tree:add(fields["value " .. name], range_from(bits, begin), value == 1)
end

function DECODERS.integer(bits, form, tree, name, told)
  local begin = bits.at
  if form.extensible and bits:take(1) == 1 then fail("a number past its range at bit " .. begin) end
  local value = constrained(bits, form.low, form.high)
  tree:add(fields["value " .. name], range_from(bits, begin), value)
  if name == "epoch" then told[#told + 1] = "epoch " .. value end
end

function DECODERS.enumerated(bits, form, tree, name, told)
  local begin = bits.at
  if form.extensible and bits:take(1) == 1 then
    local past = small_number(bits)
    tree:add(fields["value " .. name], range_from(bits, begin), #form.names + past)
    return
  end
  local value = constrained(bits, 0, #form.names - 1)
  tree:add(fields["value " .. name], range_from(bits, begin), value)
  if name == "mode" or name == "cause" then told[#told + 1] = form.names[value + 1] end
end

function DECODERS.bits(bits, form, tree, name)
  local begin, count, text = bits.at, length(bits, form.size), ""
  bits:pad()
  for _ = 1, count do text = text .. bits:take(1) end
  tree:add(fields["value " .. name], range_from(bits, begin), text)
end

function DECODERS.text(bits, form, tree, name)
  local count = length(bits, form.size)
  bits:pad()
  local range = bits.tvb(bits:skip(count), count)
  tree:add(fields["value " .. name], range, range:string())
end

local function decode_additions(bits, form, tree, told)
  local present, count = {}, small_number(bits) + 1
  for i = 1, count do present[i] = bits:take(1) == 1 end
  for i = 1, count do
    if present[i] then
      local inner, part = open_type(bits), form.additions[i]
      if part then
        whole(inner, part.type, tree, part.name, told)
      else
        add_raw(inner, tree)
      end
    end
  end
end

function DECODERS.sequence(bits, form, tree, _, told)
  local extended, present = form.extensible and bits:take(1) == 1, {}
  for i, part in ipairs(form.root) do present[i] = not part.optional or bits:take(1) == 1 end
  for i, part in ipairs(form.root) do
    if present[i] and resolved(part.type).form == "sequence" then
      within(bits, tree, part.name, function(item) decode(bits, part.type, item, part.name, told) end)
    elseif present[i] then
      decode(bits, part.type, tree, part.name, told)
    end
  end
  if extended then decode_additions(bits, form, tree, told) end
end

function DECODERS.choice(bits, form, tree, _, told)
  if form.extensible and bits:take(1) == 1 then return add_past_root(bits, tree) end
  local part = form.root[constrained(bits, 0, #form.root - 1) + 1]
  told[#told + 1] = part.name
  tree:append_text(": " .. part.name)
  decode(bits, part.type, tree, part.name, told)
end

function DECODERS.list(bits, form, tree, name, told)
  local count = length(bits, form.size)
  for i = 1, count do
    within(bits, tree, name .. " [" .. (i - 1) .. "]", function(item) decode(bits, form.of, item, name, told) end)
  end
end

local function decode_element(bits, types, tree, told)
  bits:pad()
  local begin = bits:octet()
  local id, criticality = bits:take(16), bits:take(2)
  local inner = open_type(bits)
  local name = profile.elements[id] or ("element " .. id)
  local item = tree:add(splitgnb, bits.tvb(begin, math.ceil(bits.at / 8) - begin), name)
  item:set_text(name)
  item:add(fields.id, bits.tvb(begin, 2))
  item:add(fields.criticality, bits.tvb(begin + 2, 1), CRITICALITIES[criticality] or tostring(criticality))
  if types[id] then
    whole(inner, { form = "name", name = types[id] }, item, name, told)
  else
    add_raw(inner, item)
  end
end

function DECODERS.container(bits, form, tree, _, told)
  local types = {}
  for _, row in ipairs(profile.types[form.set].rows) do types[row.id] = row.type end
  bits:pad()
  for _ = 1, bits:take(16) do decode_element(bits, types, tree, told) end
end

local function message_of(set, code, outcome)
  for _, row in ipairs(profile.types[set].rows) do
    if row.code == code then return row.messages[outcome + 1] or nil end
  end
end

function DECODERS.pdu(bits, form, tree, _, told)
  if bits:take(1) == 1 then return add_past_root(bits, tree) end
  local outcome = constrained(bits, 0, 2)
  bits:pad()
  local begin = bits:octet()
  local code, criticality = bits:take(8), bits:take(2)
  tree:add(fields.outcome, bits.tvb(begin - 1, 1), OUTCOMES[outcome + 1])
  tree:add(fields.procedure, bits.tvb(begin, 1))
  tree:add(fields.criticality, bits.tvb(begin + 1, 1), CRITICALITIES[criticality] or tostring(criticality))
  local inner, name = open_type(bits), message_of(form.set, code, outcome)
  told.message = name or (OUTCOMES[outcome + 1] .. " of procedure " .. code)
  tree:add(fields.message, bits.tvb(begin, 1), told.message)
  tree:append_text(": " .. told.message)
  if name then
    whole(inner, { form = "name", name = name }, tree, name, told)
  else
    add_raw(inner, tree)
  end
end

decode = function(bits, form, tree, name, told)
  return DECODERS[form.form](bits, form, tree, name, told)
end

-- ---- control messages

-- what the column of a message says: its name, with the token and the epoch that it has
local function info_of(told)
  local words = table.concat(told, ", ")
  if not told.message then return words == "" and "octets of no message" or words end
  return words == "" and told.message or (told.message .. " (" .. words .. ")")
end

local function dissect_message(proto, type_name)
  return function(tvb, pinfo, tree)
    local item, told = tree:add(proto, tvb()), {}
    local ok, problem = pcall(function()
      whole(Bits.new(tvb, 0, tvb:len()), { form = "name", name = type_name }, item, type_name, told)
    end)
    pinfo.cols.protocol = proto.name
    pinfo.cols.info = info_of(told)
    if not ok then
      say_malformed(item, problem)
      pinfo.cols.info:append(" [malformed]")
    end
    return tvb:len()
  end
end

local udp = DissectorTable.get("udp.port")
for port, words in pairs(PORTS) do
  local proto = Proto(words[1], words[2])
  proto.dissector = dissect_message(proto, words[3])
  udp:add(port, proto)
end

-- ---- PDCP (TS 38.323, 6.2)

local function dissect_pdcp(tvb, tree, sn_bits)
  local head = sn_bits == 12 and 2 or 3
  if tvb:len() == 0 then return nil end
  local item = tree:add(splitgnb, tvb(), "PDCP")
  if tvb(0, 1):bitfield(0, 1) == 1 and tvb:len() > head then
    local number = tvb(0, head):bitfield(8 * head - sn_bits, sn_bits)
    item:set_text("PDCP data PDU, " .. sn_bits .. "-bit SN " .. number)
    item:add(fields.sn, tvb(0, head), number)
    item:add(fields.packet, tvb(head))
    return "PDCP SN " .. number
  end
  if tvb(0, 1):bitfield(0, 4) == 0 and tvb:len() >= 5 then
    item:set_text("PDCP status report, FMC " .. tvb(1, 4):uint())
    item:add(fields.fmc, tvb(1, 4))
    if tvb:len() > 5 then item:add(fields.bitmap, tvb(5)) end
    return "PDCP status report, FMC " .. tvb(1, 4):uint()
  end
  item:set_text("no PDU of PDCP")
  item:add_proto_expert_info(malformed, "no PDU of PDCP")
  return "no PDU of PDCP"
end

-- ---- NR-U, in words: Wireshark's own dissector has read the frame

local nru = {}
for _, name in ipairs({ "pdu_type", "seq_num", "report_polling", "retransmission_flag", "lost_pkt_rpt", "high_success_delivered_nr_pdcp_sn" }) do
  nru[name] = Field.new("nrup." .. name)
end

-- the number that a field of the frame has, or nil
local function nru_value(name)
  local found = nru[name]()
  if found == nil then return nil end
  if type(found.value) == "boolean" then return found.value and 1 or 0 end
  return tonumber(tostring(found.value))
end

local function words_of_frame()
  if nru_value("pdu_type") == 1 then
    local delivered = nru_value("high_success_delivered_nr_pdcp_sn")
    return "delivery status" .. (nru_value("lost_pkt_rpt") == 1 and ", lost ranges" or "") .. (delivered and ", delivered SN " .. delivered or "")
  end
  if nru_value("pdu_type") ~= 0 then return "no frame of NR-U" end
  local kind = nru_value("report_polling") == 1 and "polling frame" or "data frame"
  return kind .. ", NR-U " .. tostring(nru_value("seq_num")) .. (nru_value("retransmission_flag") == 1 and ", restart" or "")
end

-- ---- the user plane: after Wireshark's own dissector of GTP-U

local teid, message_type = Field.new("gtp.teid"), Field.new("gtp.message")
local source, target = Field.new("ip.src"), Field.new("ip.dst")
local comment = Field.new("frame.comment")
local user_plane = Proto("splitgnb_up", "user plane of the SplitGNB profile")

-- the link between two nodes, by their addresses (docs/lab.md)
local KINDS = { ["core>up"] = "N3", ["up>du"] = "F1-U downlink", ["du>up"] = "F1-U uplink", ["up>up"] = "forwarding (Xn-U)" }
local ROLES = { "cp", "up", "du" }

-- by the octets of the address: as a text it may be the node's name
local function role_of(tvb, address)
  local octets = tvb(address.offset, 4)
  if octets(0, 1):uint() ~= 10 then return "" end
  local second, third = octets(1, 1):uint(), octets(2, 1):uint()
  if second == 0 then return "core" end
  return second <= 2 and ROLES[third] or ""
end

local function link_of(tvb)
  return KINDS[role_of(tvb, source()) .. ">" .. role_of(tvb, target())]
end

local function sn_bits_of()
  local found = comment()
  local said = found and tostring(found.value):match("(%d+)%-bit PDCP SN")
  return tonumber(said) or splitgnb.prefs.sn_bits
end

-- the extension headers of a packet: the content of each by its type, and where the payload begins
local function headers_of(tvb)
  local found, at, flags = {}, 8, tvb(0, 1):bitfield(5, 3)
  if flags == 0 then return found, at end
  local kind = flags >= 4 and tvb(11, 1):uint() or 0
  at = 12
  while kind ~= 0 do
    local count = 4 * tvb(at, 1):uint()
    found[kind] = tvb(at + 1, count - 2)
    kind, at = tvb(at + count - 1, 1):uint(), at + count
  end
  return found, at
end

local function rest_of(tvb, at)
  return at < tvb:len() and tvb(at):tvb() or nil
end

local function dissect_f1u(tvb, item, headers, at)
  local words, rest = {}, rest_of(tvb, at)
  if headers[NR_RAN_CONTAINER] then words[1] = words_of_frame() end
  if rest then words[#words + 1] = dissect_pdcp(rest, item, sn_bits_of()) end
  return table.concat(words, ", ")
end

local ip, ipv6 = Dissector.get("ip"), Dissector.get("ipv6")

-- the dissector of a packet that is IP by its version and lengths, or nil
local function dissector_of(packet)
  local length, version = packet:len(), packet(0, 1):bitfield(0, 4)
  if version == 4 and length >= 20 and packet(0, 1):bitfield(4, 4) >= 5 and packet(2, 2):uint() == length then return ip end
  if version == 6 and length >= 40 and packet(4, 2):uint() + 40 == length then return ipv6 end
end

-- shows a packet that is IP in the tree; the columns keep what they say of the link
local function show_ip(tvb, pinfo, tree, at)
  local packet = rest_of(tvb, at)
  local dissector = packet and dissector_of(packet)
  if not dissector then return end
  local src, dst, protocol = pinfo.src, pinfo.dst, tostring(pinfo.cols.protocol)
  dissector:call(packet, pinfo, tree)
  pinfo.src, pinfo.dst, pinfo.cols.protocol = src, dst, protocol
end

local function dissect_packet(tvb, item, headers, at)
  local number = headers[PDCP_PDU_NUMBER] or headers[LONG_PDCP_PDU_NUMBER]
  local words = "packet"
  if number then
    local range = number(0, headers[PDCP_PDU_NUMBER] and 2 or 3)
    item:add(fields.sn, range)
    words = "packet with PDCP SN " .. range:uint()
  end
  if at < tvb:len() then item:add(fields.packet, tvb(at)) end
  return words
end

-- what the comment of a packet says of its line: where it stands, whose it is, whether it was injected
local function add_context(tree, said)
  local item, line, event = tree:add(user_plane, "transcript"), said:match("^line (%d+), event (%d+):")
  item:add(fields.line, tonumber(line)):set_generated()
  item:add(fields.event, tonumber(event)):set_generated()
  local ue, bearer, direction = said:match("^[^;]* u(%d+) b(%d+) (%a+) ?[^;]*;")
  if ue then
    item:add(fields["value ue"], tonumber(ue)):set_generated()
    item:add(fields["value bearer"], tonumber(bearer)):set_generated()
    item:add(fields.direction, direction):set_generated()
  end
  local count = said:match("; COUNT (%d+)")
  if count then item:add(fields.count, tonumber(count)):set_generated() end
  if said:match("^[^;]*: injected ") then item:add(fields.injected, true):set_generated() end
end

local function dissect_user_plane(tvb, pinfo, tree)
  local place = teid()
  local link = place and pinfo.dst_port == GTPU_PORT and link_of(tvb)
  if not link then return end
  local packet = tvb(place.offset - 4):tvb()
  local item = tree:add(user_plane, packet())
  item:add(fields.link, packet(4, 4), link)
  local headers, at = headers_of(packet)
  local words = "End Marker"
  if message_type().value ~= END_MARKER then
    words = (link:match("^F1%-U") and dissect_f1u or dissect_packet)(packet, item, headers, at)
    if not link:match("^F1%-U") then show_ip(packet, pinfo, tree, at) end
  end
  pinfo.cols.info = link .. ", TEID " .. packet(4, 4):uint() .. ": " .. words
end

local function dissect_context(pinfo, tree)
  local found = comment()
  local said = found and tostring(found.value)
  if not said or not said:match("^line %d+, event %d+:") then return end
  add_context(tree, said)
  if said:match("^[^;]*: injected ") then pinfo.cols.info:prepend("injected: ") end
end

function user_plane.dissector(tvb, pinfo, tree)
  local ok, problem = pcall(dissect_user_plane, tvb, pinfo, tree)
  if not ok then tree:add_proto_expert_info(malformed, tostring(problem)) end
  dissect_context(pinfo, tree)
end

register_postdissector(user_plane)

-- ---- the radio: Wireshark's framing of PDCP-NR in UDP, with the tags that tools/to_pcapng.py writes

local uu = Proto("splitgnb_uu", "radio of the SplitGNB profile")

function uu.dissector(tvb, pinfo, tree)
  if tvb:len() < 18 or tvb(0, 7):string() ~= "pdcp-nr" then return 0 end
  local item = tree:add(uu, tvb())
  local words = dissect_pdcp(tvb(18):tvb(), item, tvb(9, 1):uint())
  pinfo.cols.protocol = "splitgnb_uu"
  pinfo.cols.info = "Uu, u" .. tvb(15, 2):uint() .. " b" .. tvb(13, 1):uint() .. ": " .. words
  return tvb:len()
end

udp:add(UU_PORT, uu)
