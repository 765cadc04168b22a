# What the generators of cases share: steps, commands, replies and frames in hexadecimal, and the rules by which a datagram
# is read. All of it says in awk what docs/internals/COMMANDS.md, RULES.md and SCRIPT.md say in words; none of it was taken
# from what the program answers, and none of it calls the program.
#
# A generator is called as `awk -v script=FILE -v answers=FILE -f rules.awk -f NAME.awk`: each line of the script that it
# makes goes to `script`, each line that the program then has to answer to `answers`.

BEGIN {
    digits = "0123456789abcdef"
    for (value = 0; value < 256; value++) {
        hex_of[value] = substr(digits, int(value / 16) + 1, 1) substr(digits, value % 16 + 1, 1)
        value_of[hex_of[value]] = value
        if (value > 0 && value < 128) code_of[sprintf("%c", value)] = value
    }
    PAD = 0; DATA = 1; NAK = 2; SM = 3; SETUP = 5
    size_of[PAD] = 32; size_of[DATA] = 32; size_of[NAK] = 28; size_of[SM] = 36; size_of[SETUP] = 40
    ipc = "aeron:ipc"
    manual = "aeron:udp?control-mode=manual"
}

function say(line) { print line > script }
function want(line) { print line > answers }

# Numbers can pass 2^31: a bare `print` would round them in some awks.
function decimal(value) { return sprintf("%.0f", value) }

# A number in so many bytes, the lowest first; a negative one in two's complement of four bytes.
function little(value, count,    bytes) {
    if (value < 0) value += 4294967296
    for (; count > 0; count--) {
        bytes = bytes hex_of[value % 256]
        value = int(value / 256)
    }
    return bytes
}

function ascii(words,    at, bytes) {
    for (at = 1; at <= length(words); at++) bytes = bytes hex_of[code_of[substr(words, at, 1)]]
    return bytes
}

# A text or a byte string of a command or a reply: its length, then its bytes.
function text(words) { return little(length(words), 4) ascii(words) }

function bytes_of(hex) { return length(hex) / 2 }
function byte(hex, at) { return value_of[substr(hex, 2 * at + 1, 2)] }
function front(hex, count) { return substr(hex, 1, 2 * count) }
function after(hex, count) { return substr(hex, 2 * count + 1) }

# The bytes with another one at a place.
function changed(hex, at, value) { return front(hex, at) hex_of[value] after(hex, at + 1) }

# The bytes as a script has them: `-` for none.
function written(hex) { return hex == "" ? "-" : hex }

# The number in the four bytes at a place: as it stands, and with its sign.
function word(hex, at) {
    return byte(hex, at) + 256 * (byte(hex, at + 1) + 256 * (byte(hex, at + 2) + 256 * byte(hex, at + 3)))
}
function signed(hex, at,    value) {
    value = word(hex, at)
    return value < 2147483648 ? value : value - 4294967296
}

function rounded(size) { return int((size + 31) / 32) * 32 }

# ---- Policies

function opens(default_word) {
    say("policy")
    say("version = 1")
    say("default = \"" default_word "\"")
}
function rule(principal, act, channel, allow) {
    say("[[rule]]")
    say("name = \"of a case\"")
    say("principal = \"" principal "\"")
    say("act = \"" act "\"")
    say("channel = \"" channel "\"")
    say("allow = " allow)
}
# Of version 2: a rule that stands for a time. A bound that is "" is none.
function opens_with_moments(default_word) {
    say("policy")
    say("version = 2")
    say("default = \"" default_word "\"")
}
function rule_for_a_time(act, channel, from, until, allow) {
    say("[[rule]]")
    say("name = \"for a time\"")
    say("principal = \"*\"")
    say("act = \"" act "\"")
    say("channel = \"" channel "\"")
    if (from != "") say("from = " decimal(from))
    if (until != "") say("until = " decimal(until))
    say("allow = " allow)
}
function closes() { say(".") }

# ---- Commands

function command(type, client, correlation, fields) {
    return little(type, 4) little(client, 8) little(correlation, 8) fields
}
function gives(now, client, hex) { say("cmd " decimal(now) " " client " " written(hex)) }

function add_publication(client, correlation, stream, channel) {
    return command(1, client, correlation, little(stream, 4) text(channel))
}
function add_exclusive_publication(client, correlation, stream, channel) {
    return command(3, client, correlation, little(stream, 4) text(channel))
}
function add_subscription(client, correlation, stream, channel) {
    return command(4, client, correlation, little(0, 8) little(stream, 4) text(channel))
}
function remove_publication(client, correlation, registration) {
    return command(2, client, correlation, little(registration, 8))
}
function remove_subscription(client, correlation, registration) {
    return command(5, client, correlation, little(registration, 8))
}
function add_destination(client, correlation, registration, channel) {
    return command(7, client, correlation, little(registration, 8) text(channel))
}
function remove_destination(client, correlation, registration, channel) {
    return command(8, client, correlation, little(registration, 8) text(channel))
}

# ---- Replies

function reply(client, hex) { want("reply " client " " hex) }
function error(client, correlation, code, words) {
    reply(client, "010f0000" little(correlation, 8) little(code, 4) text(words))
}
function succeeded(client, correlation) { reply(client, "040f0000" little(correlation, 8)) }
function publication_ready(client, correlation, registration, session, stream) {
    reply(client, "030f0000" little(correlation, 8) little(registration, 8) little(session, 4) little(stream, 4))
}
function exclusive_ready(client, correlation, registration, session, stream) {
    reply(client, "060f0000" little(correlation, 8) little(registration, 8) little(session, 4) little(stream, 4))
}
function subscription_ready(client, correlation, registration) {
    reply(client, "070f0000" little(correlation, 8) little(registration, 8))
}
function counter_ready(client, correlation, registration) {
    reply(client, "080f0000" little(correlation, 8) little(registration, 8))
}
function counter_gone(client, registration) { reply(client, "090f0000" little(registration, 8)) }
function image_comes(client, source, subscription, session, stream, position, origin) {
    reply(client, "020f0000" little(source, 8) little(subscription, 8) little(session, 4) little(stream, 4) \
        little(position, 8) text(origin))
}
function image_goes(client, source, subscription, stream) {
    reply(client, "050f0000" little(source, 8) little(subscription, 8) little(stream, 4))
}

# ---- Frames

function header(length_field, flags, type) { return little(length_field, 4) "00" little(flags, 1) little(type, 2) }
function data_frame(flags, offset, session, stream, term, payload) {
    return header(32 + bytes_of(payload), flags, DATA) little(offset, 4) little(session, 4) little(stream, 4) \
        little(term, 4) little(0, 8) payload
}
function pad_frame(length_field, offset, session, stream, term) {
    return header(length_field, 192, PAD) little(offset, 4) little(session, 4) little(stream, 4) little(term, 4) little(0, 8)
}
function beat_frame(offset, session, stream, term) {
    return header(0, 192, DATA) little(offset, 4) little(session, 4) little(stream, 4) little(term, 4) little(0, 8)
}
function nak_frame(session, stream, term, offset, missing) {
    return header(28, 0, NAK) little(session, 4) little(stream, 4) little(term, 4) little(offset, 4) little(missing, 4)
}
function status_frame(flags, session, stream, term, offset, window, receiver) {
    return header(36, flags, SM) little(session, 4) little(stream, 4) little(term, 4) little(offset, 4) little(window, 4) \
        little(receiver, 8)
}
function setup_frame(offset, session, stream, initial, active, term_length, mtu) {
    return header(40, 0, SETUP) little(offset, 4) little(session, 4) little(stream, 4) little(initial, 4) little(active, 4) \
        little(term_length, 4) little(mtu, 4) little(0, 4)
}
# Zeros up to the next multiple of 32.
function filled(hex) {
    while (bytes_of(hex) % 32) hex = hex "00"
    return hex
}

# ---- Reading a datagram

function type_at(hex, at) { return byte(hex, at + 6) + 256 * byte(hex, at + 7) }

# Whether a type's frame has its fault of length: what its length field says, or a field that may not be negative is.
function length_is_bad(hex, at, type,    rest, stated) {
    rest = bytes_of(hex) - at
    stated = signed(hex, at)
    if (type == NAK || type == SM || type == SETUP) {
        if (stated < size_of[type] || stated > rest) return 1
    } else if (type == DATA) {
        if (stated == 0) { if (bytes_of(hex) != 32) return 1 }
        else if (stated < 32 || stated > rest) return 1
    } else if (stated <= 0 || stated % 32) return 1
    if (type == NAK || type == SM) return signed(hex, at + 20) < 0 || type == SM && signed(hex, at + 24) < 0
    return signed(hex, at + 8) < 0
}

# The fault of the frame that begins at a byte of the datagram, or nothing.
function frame_fault(hex, at,    rest, type) {
    rest = bytes_of(hex) - at
    if (rest < 8) return "too-short"
    if (byte(hex, at + 4) != 0) return "bad-version"
    type = type_at(hex, at)
    if (!(type in size_of)) return "other-type"
    if (rest < size_of[type]) return "too-short"
    if (length_is_bad(hex, at, type)) return "bad-length"
    if ((type == DATA || type == PAD || type == SETUP) && word(hex, at + 8) % 32) return "unaligned"
    if (type == NAK && word(hex, at + 20) % 32) return "unaligned"
    return ""
}

# Whether the frame at a byte does not go on where the one before it, at another byte, ends.
function is_mixed(hex, before, at,    type, field) {
    type = type_at(hex, at)
    if (type != DATA && type != PAD || type_at(hex, before) == PAD) return 1
    for (field = 12; field <= 20; field += 4) if (word(hex, at + field) != word(hex, before + field)) return 1
    return word(hex, at + 8) != word(hex, before + 8) + rounded(word(hex, before))
}

# The first fault of the datagram, or nothing. Where there is none, `frames` is how many frames it has, and `starts` where.
function datagram_fault(hex,    at, before, fault) {
    frames = 0
    fault = frame_fault(hex, 0)
    if (fault != "") return fault
    starts[frames++] = 0
    if (type_at(hex, 0) != DATA && type_at(hex, 0) != PAD || word(hex, 0) == 0) return ""
    for (;;) {
        before = starts[frames - 1]
        at = before + (type_at(hex, before) == PAD ? 32 : rounded(word(hex, before)))
        if (at >= bytes_of(hex)) return ""
        if (bytes_of(hex) - at < 32) return "too-short"
        fault = frame_fault(hex, at)
        if (fault != "") return fault
        if (is_mixed(hex, before, at)) return "mixed"
        starts[frames++] = at
    }
}

# The position of a place in a stream: the terms from the initial one on, modulo 2^32, and the offset in the term.
function position_of(initial, term, offset, term_length,    terms) {
    terms = term - initial
    if (terms < 0) terms += 4294967296
    return terms * term_length + offset
}
