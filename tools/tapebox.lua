-- A Wireshark dissector of tapebox: its lines A and B, its retransmissions, and its participants' lines. docs/FORMATS.md has the bytes, and
-- docs/WIRESHARK.md shows it at work.
--     tshark -X lua_script:tools/tapebox.lua -r day.pcap -Y 'tapebox.symbol == "AB" && tapebox.price > 10.05'
-- Ports are preferences, as -o tapebox.feed.a_ports:9101, or named by Decode As, as -d udp.port==9101,tapebox.feed. Of several faults of
-- a unit, which is a packet, an answer or a message on a line, the first in reading order is told: tapebox.refusal is the program's own.

local feed = Proto("tapebox.feed", "Tapebox feed")
local retransmission = Proto("tapebox.retransmission", "Tapebox retransmission")
local line = Proto("tapebox.line", "Tapebox participant's line")
-- What comes after all else of a frame.
local last_of_frame = Proto("tapebox", "Tapebox, the end of a frame")

-- The defaults are the README's. A and B have a preference each, since a range of both would not tell which port is A's.
feed.prefs.a_ports = Pref.range("UDP ports of line A", "9101", "Where line A is received, behind a relay too", 65535)
feed.prefs.b_ports = Pref.range("UDP ports of line B", "9102", "Where line B is received, behind a relay too", 65535)
retransmission.prefs.ports = Pref.range("TCP ports", "9200", "Where retransmissions are asked for", 65535)
line.prefs.ports = Pref.range("TCP ports", "9000-9025", "Where participants send, each on a port of its own", 65535)

-- RULES, "Limits"; Lua's numbers, which are doubles, have them all exactly.
local PRICE_MOST, SIZE_MOST, LONGEST_BODY, LONGEST_PACKET, PACKETS_MOST = 999999999999, 99999999, 64, 1823, 8
local VERSIONS = { { entries = 8, number = 1048576 }, { entries = 16, number = 16777216 } }
local HEADER, SUMMARY, MARK, REQUEST = 15, 65, 13, 14
local PACKETS = { D = "data", H = "beat", E = "end" }
local MESSAGES = { R = "report", X = "cancel", C = "correct", S = "reinstate" }
local LENGTHS = { R = 38, X = 26, C = 42, S = 26 }
local MARKS = { "Open", "High", "Low", "Last" }
-- The codes of both matrices, by position: which matrix a day goes by is not in its bytes.
local CODES = {
    { ["@"] = "regular", C = "cash", N = "next day", R = "seller" },
    { F = "intermarket sweep", O = "opening print", ["5"] = "reopening print", ["6"] = "closing print", ["4"] = "derivatively priced",
      ["7"] = "qualified contingent", ["9"] = "corrected consolidated close" },
    { T = "extended hours", U = "extended hours out of sequence", L = "sold last", Z = "sold out of sequence" },
    { A = "acquisition", B = "bunched", D = "distribution", S = "split", X = "cross", Y = "yellow flag", ["1"] = "stopped stock",
      H = "price variation", I = "odd lot", V = "contingent", W = "average price", P = "prior reference price", G = "bunched sold",
      M = "official close", Q = "official open", ["2"] = "stopped stock, sold last", ["3"] = "stopped stock, sold out of sequence" },
}
-- RULES, "Refusals by number and name": of a message's bytes, of a packet's, and those that an answer tells or is refused by.
local REFUSALS = {
    [11] = "Oversize", [12] = "Short", [13] = "BadKind", [14] = "BadLength", [15] = "BadParticipant", [16] = "BadNumber", [17] = "BadSymbol",
    [18] = "BadTarget", [19] = "BadPrice", [20] = "BadSize", [21] = "BadCondition",
    [51] = "Short", [52] = "BadVersion", [53] = "BadKind", [54] = "BadCount", [55] = "BadEntry", [56] = "NotInOrder", [57] = "Trailing",
    [71] = "OtherSession", [72] = "Beyond", [73] = "BadSpan", [76] = "BadAnswer",
}
-- The fields by type and by name after "tapebox.". Words for letters and dollars as a number filter well: tapebox.kind == "cancel".
local FIELDS = {
    none = { entry = "Entry", message = "Message", summary = "Summary", request = "Request", ["answer.packet"] = "Packet", unread = "Not read" },
    string = { ["feed.line"] = "Line", ["packet.kind"] = "Kind", kind = "Kind", participant = "Participant", symbol = "Symbol",
               condition = "Condition" },
    uint8 = { version = "Version", ["packet.count"] = "Entries", ["summary.marks"] = "Marks", answer = "Answer", ["answer.packets"] = "Packets" },
    double = { price = "Price" }, uint16 = { refusal = "Refusal", length = "Length", ["request.count"] = "Entries asked for" },
    uint32 = { ["packet.number"] = "Packet number", number = "Tape number", ["message.number"] = "Message number", target = "Target",
               size = "Size", ["summary.trades"] = "Trades", ["request.first"] = "First number asked for" },
    uint64 = { session = "Session", moment = "Moment", ["summary.volume"] = "Volume" },
}
for _, mark in ipairs(MARKS) do
    local name = "summary." .. mark:lower()
    FIELDS.double[name], FIELDS.uint32[name .. ".place"], FIELDS.string[name .. ".participant"] = mark, mark .. "'s place", mark .. "'s participant"
end
local f = {}
for kind, titles in pairs(FIELDS) do
    for name, title in pairs(titles) do f[name] = ProtoField[kind]("tapebox." .. name, title) end
end

-- By number; under 0 what is no refusal, since only the capture lacks the bytes.
local named, experts = { [0] = "cut off" }, {
    [0] = ProtoExpert.new("tapebox.cut", "Bytes that the capture lacks, or that are not reassembled", expert.group.UNDECODED, expert.severity.NOTE),
    gap = ProtoExpert.new("tapebox.feed.gap", "Gap", expert.group.SEQUENCE, expert.severity.NOTE),
    late = ProtoExpert.new("tapebox.feed.late", "Late or repeated", expert.group.SEQUENCE, expert.severity.NOTE),
    first = ProtoExpert.new("tapebox.feed.first", "Begins within a day", expert.group.SEQUENCE, expert.severity.CHAT),
    ended = ProtoExpert.new("tapebox.ended", "Ends within a unit", expert.group.SEQUENCE, expert.severity.WARN),
    empty = ProtoExpert.new("tapebox.feed.empty", "Empty, as a follower sends to its own line at its end", expert.group.SEQUENCE, expert.severity.CHAT),
    passed = ProtoExpert.new("tapebox.passed", "Passed over", expert.group.UNDECODED, expert.severity.NOTE),
}
for number, name in pairs(REFUSALS) do
    local of = number < 50 and "message" or number < 70 and "packet" or "answer"
    -- An answer that tells a refusal is well spelled itself.
    local told = of == "answer" and name ~= "BadAnswer"
    named[number] = number .. " " .. name
    experts[number] = ProtoExpert.new("tapebox." .. of .. "." .. name:lower(), named[number],
        told and expert.group.RESPONSE_CODE or expert.group.MALFORMED, told and expert.severity.WARN or expert.severity.ERROR)
end
-- A field has one protocol, but each of the three shows those that it needs.
feed.fields, feed.experts = f, experts

-- Notes that a unit is refused if something does not hold, at the item to blame, and the number at the unit's root for filters.
-- Tells whether the unit is not refused so far; once it is, nothing more is noted.
local function check(unit, holds, number, item, why)
    if holds or unit.fault then return not unit.fault end
    if (number == 12 or number == 51) and unit.tvb:len() < unit.tvb:reported_len() then number = 0 end
    item:add_proto_expert_info(experts[number], named[number] .. (why and ": " .. why or ""))
    -- A packet has numbers of its own for a message that is refused.
    if unit.is_packet and number > 0 and number < 50 then return check(unit, false, number == 12 and 51 or 55, item, "message, " .. named[number]) end
    unit.fault = named[number]
    if number > 0 then unit.root:add(f.refusal, number, "Refusal: " .. unit.fault):set_generated() end
    return false
end

-- Any bytes as one line of text; numbers from one to another.
local function printable(range) return (range:raw():gsub("[^ -~]", "?")) end
local function span(first, last) return last > first and first .. ".." .. last or tostring(first) end

-- A price in dollars: with four decimals, without needless zeros, as a number, and whether it is in its range.
local function dollars(range)
    local price, number = range:uint64(), range:uint64():tonumber()
    local text = string.format("%s.%04d", tostring(price / 10000), (price % 10000):tonumber())
    return text, text:gsub("0?0$", ""), number / 10000, number >= 1 and number <= PRICE_MOST
end

-- What a condition's codes mean, or nothing if one is not of its position.
local function meaning(codes)
    local meanings = {}
    for position, known in ipairs(CODES) do
        local code = codes:sub(position, position)
        if not known[code] and (position == 1 or code ~= " ") then return nil end
        meanings[#meanings + 1] = known[code]
    end
    return table.concat(meanings, "; ")
end

-- Shows the message at a place, and tells where it ends unless it is refused.
local function show_message(unit, tree, at)
    local tvb, left = unit.tvb, unit.tvb:len() - at
    if not check(unit, left >= 2, 12, tree) then return nil end
    local length, length_item = tvb(at, 2):uint(), tree:add(f.length, tvb(at, 2))
    check(unit, length >= 1 and length <= LONGEST_BODY, 11, length_item)
    if not check(unit, left >= 2 + length, 12, length_item) then return nil end
    local body = tvb(at + 2, length)
    local letter = printable(body(0, 1))
    local kind = MESSAGES[letter] or "unknown"
    check(unit, MESSAGES[letter], 13, tree:add(f.kind, body(0, 1), kind, "Kind: " .. kind .. " (" .. letter .. ")"))
    if not check(unit, length == LENGTHS[letter], 14, length_item) then return nil end
    local participant, symbol = printable(body(1, 1)), printable(body(14, 8)):gsub(" *$", "")
    check(unit, participant:find("^[A-Z]$"), 15, tree:add(f.participant, body(1, 1), participant))
    check(unit, body(2, 4):uint() > 0, 16, tree:add(f["message.number"], body(2, 4)))
    tree:add(f.moment, body(6, 8))
    check(unit, symbol:find("^[A-Z0-9.]+$"), 17, tree:add(f.symbol, body(14, 8), symbol))
    local text, after = participant .. " " .. symbol, 22
    if letter ~= "R" then
        check(unit, body(22, 4):uint() > 0, 18, tree:add(f.target, body(22, 4)))
        text, after = text .. " " .. kind .. " " .. body(22, 4):uint(), 26
    end
    if letter == "R" or letter == "C" then
        local price, size, condition = body(after, 8), body(after + 8, 4), body(after + 12, 4)
        local exact, short, number, in_range = dollars(price)
        local codes, means = printable(condition):gsub(" ", "_"), meaning(condition:raw())
        check(unit, in_range, 19, tree:add(f.price, price, number, "Price: " .. exact))
        check(unit, size:uint() >= 1 and size:uint() <= SIZE_MOST, 20, tree:add(f.size, size))
        check(unit, means, 21, tree:add(f.condition, condition, codes, "Condition: " .. codes .. " (" .. (means or "unknown") .. ")"))
        text = text .. " " .. short .. " x " .. size:uint() .. " " .. codes
    end
    tree:append_text(": " .. text)
    table.insert(unit.said, text)
    return not unit.fault and at + 2 + length or nil
end

-- Shows a summary whose places go up to a number.
local function show_summary(unit, tree, range, number_most)
    local summary, text = tree:add(f.summary, range), ": "
    check(unit, range(0, 1):uint() <= 15, 55, summary:add(f["summary.marks"], range(0, 1)), "presence byte")
    for position, mark in ipairs(MARKS) do
        local bytes, name = range(1 + MARK * (position - 1), MARK), "summary." .. mark:lower()
        local place, participant = bytes(8, 4), printable(bytes(12, 1))
        local exact, short, number, in_range = dollars(bytes(0, 8))
        -- The open is the lowest bit; bit fields count from the highest.
        if range(0, 1):bitfield(8 - position, 1) == 1 then
            local item = summary:add(f[name], bytes, number, mark .. ": " .. exact .. " at " .. place:uint() .. " by " .. participant)
            item:add(f[name .. ".place"], place)
            item:add(f[name .. ".participant"], bytes(12, 1), participant)
            check(unit, in_range and place:uint() >= 1 and place:uint() <= number_most and participant:find("^[A-Z]$"), 55, item, name)
            text = text .. mark:lower() .. " " .. short .. ", "
        else
            check(unit, bytes:raw() == ("\0"):rep(MARK), 55, summary:add(bytes, mark .. ": none"), name)
        end
    end
    summary:add(f["summary.volume"], range(53, 8))
    summary:add(f["summary.trades"], range(61, 4))
    summary:append_text(text .. "volume " .. tostring(range(53, 8):uint64()) .. ", trades " .. range(61, 4):uint())
end

-- Shows the entry at a place, which is to have a number, and tells where it ends unless it is refused.
local function show_entry(unit, tvb, at, wanted, number_most)
    if not check(unit, tvb:len() - at >= 4, 51, unit.root, "number of an entry") then return nil end
    local entry, number = unit.root:add(f.entry, tvb(at)), tvb(at, 4):uint()
    local number_item = entry:append_text(" " .. number):add(f.number, tvb(at, 4))
    if not check(unit, number >= 1 and number <= number_most, 55, number_item, "number") then return nil end
    local finish = show_message(unit, entry, at + 4)
    if finish and printable(tvb(at + 6, 1)) ~= "R" then
        if not check(unit, tvb:len() - finish >= SUMMARY, 51, entry, "summary") then return nil end
        show_summary(unit, entry, tvb(finish, SUMMARY), number_most)
        finish = finish + SUMMARY
    end
    if finish then entry:set_len(finish - at) end
    return check(unit, number == wanted, 56, number_item, "not " .. wanted) and finish or nil
end

-- Shows a packet, and tells its headline, what its entries say, and unless it is refused its session and its first and last number.
local function show_packet(root, tvb)
    local unit = { root = root, tvb = tvb, said = {}, is_packet = true }
    if not check(unit, tvb:len() >= HEADER, 51, root, "header") then return "[" .. unit.fault .. "]", unit.said end
    local letter, number, count = printable(tvb(1, 1)), tvb(10, 4):uint(), tvb(14, 1):uint()
    local kind, limits = PACKETS[letter] or "unknown", VERSIONS[tvb(0, 1):uint()]
    local is_data, last = kind == "data", number + count - 1
    check(unit, limits, 52, root:add(f.version, tvb(0, 1)))
    check(unit, PACKETS[letter], 53, root:add(f["packet.kind"], tvb(1, 1), kind, "Kind: " .. kind .. " (" .. letter .. ")"))
    root:add(f.session, tvb(2, 8))
    local number_item, count_item = root:add(f["packet.number"], tvb(10, 4)), root:add(f["packet.count"], tvb(14, 1))
    -- There are no limits if the version is refused.
    check(unit, unit.fault or (count > 0) == is_data and count <= limits.entries, 54, count_item)
    check(unit, unit.fault or is_data or number <= limits.number, 54, number_item)
    local session, at = tostring(tvb(2, 8):uint64()), not unit.fault and HEADER
    local headline = kind .. " " .. span(number, last) .. " session " .. session
    for wanted = number, last do at = at and show_entry(unit, tvb, at, wanted, limits.number) end
    if at and at < tvb:len() then check(unit, false, 57, root:add(f.unread, tvb(at)), "after " .. at .. " bytes") end
    if unit.fault then return headline .. " [" .. unit.fault .. "]", unit.said end
    -- A beat and an end tell the last number so far, so the one after it is as if it were their first.
    return headline, unit.said, session, is_data and number or number + 1, is_data and last or number
end

-- Frames are read in order once, and shown in any order later. What was decided at the first reading is kept by the frame's number, and by how
-- many decisions of the frame precede it.
local decisions, made_of_frame = {}, 0
local function decide(pinfo, decision)
    made_of_frame = made_of_frame + 1
    local key = pinfo.number .. " " .. made_of_frame
    if not pinfo.visited then decisions[key] = decision() end
    return decisions[key]
end

-- What comes next on each port, by session.
local next_number = {}

-- Notes a packet that is not its port's next. A capture may begin within a day, so the first one leaves no gap.
local function show_order(root, pinfo, session, first, last)
    local port = tostring(pinfo.dst) .. " " .. pinfo.dst_port .. " " .. session
    local wanted = decide(pinfo, function()
        local wanted = next_number[port]
        next_number[port] = math.max(wanted or first, last + 1)
        return wanted
    end)
    if not wanted then
        if first > 1 then root:add_proto_expert_info(experts.first, "Begins within a day: " .. span(1, first - 1) .. " not seen on this port") end
    elseif first > wanted then
        root:add_proto_expert_info(experts.gap, "Gap: " .. span(wanted, first - 1) .. " not seen on this port")
    elseif first < wanted then
        root:add_proto_expert_info(experts.late, "Late or repeated: the next on this port is " .. wanted)
    end
end

-- The lines by their ports; one that Decode As names, and no preference, is of neither.
local line_of = {}

function feed.dissector(tvb, pinfo, tree)
    local name, root = line_of[pinfo.dst_port] or "port " .. pinfo.dst_port, tree:add(feed, tvb())
    root:add(f["feed.line"], name):set_generated()
    local headline, said, session, first, last = show_packet(root, tvb)
    -- A packet that an ICMP error quotes has had its turn.
    if session and not pinfo.in_error_pkt then show_order(root, pinfo, session, first, last) end
    root:append_text(", " .. name .. " " .. headline)
    pinfo.cols.protocol = feed.name
    pinfo.cols.info = name .. " " .. headline .. (said[1] and ": " or "") .. table.concat(said, ", ")
end

-- By direction of a connection: since when no unit begins in its bytes any more, and the unit of which only the beginning is there so far.
local passed_since, begun = {}, {}
local stream_number = Field.new("tcp.stream")
local function direction_of(pinfo) return tostring(stream_number()) .. " " .. pinfo.src_port end

-- Keeps something for a direction's later frames. A segment that an ICMP error quotes has had its turn.
local function keep(pinfo, kept, direction, value)
    if not pinfo.visited and not pinfo.in_error_pkt then kept[direction] = value end
end

-- Puts what units say into a frame's row. A frame that ends a unit of earlier segments and has more units comes in parts, and the row keeps the
-- words of each.
local has_words = false
local function put_in_row(pinfo, proto, title, said)
    pinfo.cols.protocol = proto.name
    pinfo.cols.info = (has_words and ", " or title .. " ") .. table.concat(said, ", ")
    pinfo.cols.info:fence()
    has_words = true
end

-- Shows bytes in which no unit is looked for.
local function pass_over(proto, tvb, pinfo, tree, title, since)
    local root = tree:add(proto, tvb()):append_text(", " .. title)
    root:add(f.unread, tvb()):add_proto_expert_info(experts.passed, "Passed over: no unit begins after " .. since)
    put_in_row(pinfo, proto, title, { "[passed over after " .. since .. "]" })
end

-- A segment's bytes after those of the unit that earlier ones began, which is needed only if Wireshark is not to join segments itself.
local function joined(tvb, pinfo, direction)
    local before = pinfo.can_desegment == 0 and decide(pinfo, function() return begun[direction] and begun[direction].bytes end)
    return before and ByteArray.new(before .. tvb:bytes():tohex()):tvb("Joined segments") or tvb
end

-- Leaves what begins at a place to later segments, and tells whether that is for Wireshark to do: it may be told to join none, and it joins
-- none if the capture lacks bytes, so that nobody knows where the next unit begins.
local function leave_rest(pinfo, direction, proto, title, tvb, at, missing, is_whole)
    local is_joined = is_whole and pinfo.can_desegment > 0
    if is_joined then pinfo.desegment_offset, pinfo.desegment_len = at, missing or DESEGMENT_ONE_MORE_SEGMENT end
    local bytes = is_whole and not is_joined and tvb(at):bytes():tohex()
    keep(pinfo, begun, direction, { proto = proto, title = title, length = tvb:len() - at, bytes = bytes or nil })
    return is_joined
end

-- Cuts what a direction of a connection brings into units, and has each shown. `measure` tells how long the unit at a place is, or nil if
-- that takes more bytes; if no unit begins, it takes all that are there, and tells the refusal. `show` tells what a unit says.
local function show_units(proto, tvb, pinfo, tree, title, measure, show)
    local direction = direction_of(pinfo)
    local since = decide(pinfo, function() return passed_since[direction] end)
    if since then return pass_over(proto, tvb, pinfo, tree, title, since) end
    local is_whole, root, said, at, missing = tvb:len() == tvb:reported_len(), nil, {}, 0, nil
    tvb = joined(tvb, pinfo, direction)
    keep(pinfo, begun, direction, nil)
    while at < tvb:len() do
        local left, length, refusal = tvb:len() - at, measure(tvb, at)
        missing = length and length - left
        if not length or length > left then break end
        root = root or tree:add(proto, tvb()):append_text(", " .. title)
        table.insert(said, show(root, tvb, at, length, refusal))
        at = at + length
        if refusal then keep(pinfo, passed_since, direction, named[refusal] .. " in frame " .. pinfo.number) end
    end
    local is_joined = at < tvb:len() and leave_rest(pinfo, direction, proto, title, tvb, at, missing, is_whole)
    if at < tvb:len() and not is_joined then
        root = root or tree:add(proto, tvb()):append_text(", " .. title)
        root:add(f.unread, tvb(at)):add_proto_expert_info(experts[0])
        table.insert(said, "[cut off]")
    end
    if not is_whole then keep(pinfo, passed_since, direction, "the bytes that the capture lacks of frame " .. pinfo.number) end
    if not root then return end
    if is_joined then root:set_len(at) end
    put_in_row(pinfo, proto, title, said)
end

local function measure_message(tvb, at)
    local length = tvb:len() - at >= 2 and tvb(at, 2):uint()
    if not length then return nil end
    if length < 1 or length > LONGEST_BODY then return tvb:len() - at, 11 end
    return 2 + length
end

local function show_line_message(root, tvb, at, length)
    local unit = { root = root:add(f.message, tvb(at, length)), tvb = tvb, said = {} }
    show_message(unit, unit.root, at)
    return (unit.said[1] or "message") .. (unit.fault and " [" .. unit.fault .. "]" or "")
end

function line.dissector(tvb, pinfo, tree)
    show_units(line, tvb, pinfo, tree, "line", measure_message, show_line_message)
end

local function show_request(root, tvb, at)
    local item, session, first, count = root:add(f.request, tvb(at, REQUEST)), tvb(at, 8), tvb(at + 8, 4), tvb(at + 12, 2)
    item:add(f.session, session)
    item:add(f["request.first"], first)
    item:add(f["request.count"], count)
    return count:uint() .. " from " .. first:uint() .. " session " .. tostring(session:uint64())
end

local function measure_answer(tvb, at)
    local first, left, length = tvb(at, 1):uint(), tvb:len() - at, 2
    if first >= 71 and first <= 73 then return 1 end
    if first == 0 and left < 2 then return nil end
    local packets = first == 0 and tvb(at + 1, 1):uint() or 0
    if packets < 1 or packets > PACKETS_MOST then return left, 76 end
    for _ = 1, packets do
        if left < length + 2 then return nil end
        local bytes = tvb(at + length, 2):uint()
        if bytes < 1 or bytes > LONGEST_PACKET then return left, 76 end
        length = length + 2 + bytes
    end
    return length
end

local function show_answer(root, tvb, at, length, refusal)
    local first, place, said = tvb(at, 1):uint(), at + 2, {}
    local unit = { root = root:add(f.answer, tvb(at, length), first, "Answer: " .. (first == 0 and "packets" or first)), tvb = tvb }
    if not check(unit, first == 0 and not refusal, refusal or first, unit.root) then return unit.fault end
    unit.root:add(f["answer.packets"], tvb(at + 1, 1))
    while place < at + length do
        local packet, bytes = unit.root:add(f["answer.packet"], tvb(place)), tvb(place, 2):uint()
        packet:set_len(2 + bytes):add(f.length, tvb(place, 2))
        local headline = show_packet(packet, tvb(place + 2, bytes):tvb())
        packet:append_text(": " .. headline)
        table.insert(said, headline)
        place = place + 2 + bytes
    end
    return table.concat(said, ", ")
end

function retransmission.dissector(tvb, pinfo, tree)
    -- The port that this was called by, the preference's or that of Decode As, is the one that answers.
    if pinfo.dst_port == pinfo.match_uint then
        show_units(retransmission, tvb, pinfo, tree, "request", function() return REQUEST end, show_request)
    else
        show_units(retransmission, tvb, pinfo, tree, "answer", measure_answer, show_answer)
    end
end

-- What only the end of a frame tells: that a direction ends within a unit, and that a datagram is empty, for which Wireshark calls no dissector of
-- a port. A follower that is done wakes the reader of its other line by one, so it is told without its refusal, 51 Short.
local datagram_length, is_fin, is_reset = Field.new("udp.length"), Field.new("tcp.flags.fin"), Field.new("tcp.flags.reset")
local function note_empty(tvb, pinfo, tree, name)
    tree:add(feed, tvb(tvb:len())):append_text(", " .. name .. " empty"):add_proto_expert_info(experts.empty)
    pinfo.cols.protocol = feed.name
    pinfo.cols.info = name .. " empty"
end

local function note_end(tvb, pinfo, tree, unit)
    local root = tree:add(unit.proto, tvb(tvb:len())):append_text(", " .. unit.title)
    root:add_proto_expert_info(experts.ended, "Ends within a unit: " .. unit.length .. " bytes of it came")
    put_in_row(pinfo, unit.proto, unit.title, { "[ends within a unit]" })
end

function last_of_frame.dissector(tvb, pinfo, tree)
    local datagram, fin, reset = datagram_length(), is_fin(), is_reset()
    if datagram and datagram.value == 8 and line_of[pinfo.dst_port] then note_empty(tvb, pinfo, tree, line_of[pinfo.dst_port]) end
    if fin and (fin.value or reset.value) then
        local unit = decide(pinfo, function() return begun[direction_of(pinfo)] end)
        if unit then note_end(tvb, pinfo, tree, unit) end
    end
    made_of_frame, has_words = 0, false
end

-- Forgets another capture.
function feed.init()
    decisions, made_of_frame, next_number, passed_since, begun, has_words = {}, 0, {}, {}, {}, false
end

register_postdissector(last_of_frame)

-- Keeps a table's ports, each with a name, as the preferences have them. Decode As offers the protocol besides.
local function bind(proto, transport, preferences, bound)
    local ports = DissectorTable.get(transport)
    local function apply()
        for port in pairs(bound) do ports:remove(port, proto) end
        for port in pairs(bound) do bound[port] = nil end
        for preference, name in pairs(preferences) do
            for first, last in proto.prefs[preference]:gmatch("(%d+)%-?(%d*)") do
                for port = tonumber(first), tonumber(last) or tonumber(first) do bound[port] = name end
            end
        end
        for port in pairs(bound) do ports:add(port, proto) end
    end
    proto.prefs_changed = apply
    ports:add_for_decode_as(proto)
    apply()
end

bind(feed, "udp.port", { a_ports = "A", b_ports = "B" }, line_of)
bind(retransmission, "tcp.port", { ports = "retransmission" }, {})
bind(line, "tcp.port", { ports = "line" }, {})
