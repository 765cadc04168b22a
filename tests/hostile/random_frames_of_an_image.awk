# An image of two readers is sent frames and pads of any length, in any order, at any place: in a row, twice, over one another,
# below what is kept and beyond the window, one or some in a datagram, with heartbeats between. What each is answered, what
# each poll then gives, and which NAK and status message each turn of the receiver sends, is worked out here by a map from
# positions to frames, in the words of docs/internals/RULES.md and LOGS.md. A row of numbers decides what comes. There are two
# images, one after the other: one joins at 0, the other where eleven terms are left below the greatest position. Positions are
# kept here from the join on.
function next_below(bound) {
    state = state * 16807 % 2147483647
    return state % bound
}
function least(one, other) { return one < other ? one : other }
function base() { return least(reader[1], reader[2]) }

# ---- The map

# The word for a frame at a position; where it is taken it is kept, by each 32 bytes of its range.
function word_for(position, hex, offset, stated,    at, reached) {
    reached = position + rounded(stated)
    if (reached > heard) heard = reached
    if (position < int(base() / 65536) * 65536) return "below"
    if (position >= base() + 32768 || offset + rounded(stated) > 65536) return "beyond"
    if (frame_at[position] == hex) return "repeat"
    for (at = position; at < reached; at += 32) if (at in is_taken) return "overlap"
    for (at = position; at < reached; at += 32) is_taken[at] = 1
    frame_at[position] = hex
    end_at[position] = reached
    while (contiguous in end_at) contiguous = end_at[contiguous]
    return "taken"
}
function is_pad(hex) { return type_at(hex, 0) == PAD }

# A reader gets what stands in a row from where it is. Pads are passed, but for those after the last fragment.
function polls(number, count,    position, rows, row, hex, at) {
    position = reader[number]
    rows = 0
    while (rows < count && position < contiguous) {
        hex = frame_at[position]
        position = end_at[position]
        if (!is_pad(hex)) {
            rows++
            row[rows] = "fragment " decimal(join + position) " " hex_of[byte(hex, 5)] " " written(after(hex, 32))
        }
    }
    reader[number] = position
    say("poll " decimal(now) " " number " " source - 3 + number " " source " " count)
    want("poll " rows)
    for (at = 1; at <= rows; at++) want(row[at])
    given += rows
}

# ---- What is reported to the publisher

# Where the gap ends that begins at the contiguous position; there where there is none.
function gap_end(    at, most) {
    for (at = contiguous; at < base() + 32768; at += 32) if (at in is_taken) return at
    most = least(heard, base() + 32768)
    return most > contiguous ? most : contiguous
}
function reports_due(    missing) {
    say("image " decimal(now) " " source)
    missing = gap_end() - contiguous
    if (missing == 0) gap = -1
    else if (gap != contiguous) { gap = contiguous; found = now; asked = -1 }
    if (missing && now - (asked < 0 ? found : asked) > (asked < 0 ? 1000000 : 60000000)) {
        asked = now
        want("sent 127.0.0.1:40000 " nak_frame(9, stream, first + int(contiguous / 65536), contiguous % 65536, missing))
        naks++
    }
    if (reported < 0 || now - reported_at > 200000000 || base() - reported >= 8192) {
        reported = base()
        reported_at = now
        want("sent 127.0.0.1:40000 " status_frame(0, 9, stream, first + int(reported / 65536), reported % 65536, 32768, 1))
        reports++
    }
}

# ---- What comes

function comes(hex) { say("packet " decimal(now) " 127.0.0.1:40123 127.0.0.1:40000 " hex) }
function some_flags() { return substr("c0c0c0c0c0804000e0", 1 + 2 * next_below(9), 2) }
function some_payload(    count, bytes, letter) {
    count = next_below(4) ? next_below(4) * 31 : next_below(1377)
    letter = hex_of[97 + next_below(2)]
    for (; count > 0; count--) bytes = bytes letter
    return bytes
}
function place(    kind) {
    kind = next_below(20)
    if (kind < 12) return contiguous
    if (kind < 16) return contiguous + 32 * next_below(60)
    if (kind < 18) return int(base() / 65536) * 65536 - 32 * (base() < 65536 ? 0 : 1 + next_below(100))
    if (kind == 18) return base() + 32768 + 32 * (next_below(9) - 4)
    return 32 * next_below(8192)
}
# A datagram of data from a position on, in its term; it may end in a pad.
function data(position,    left, offset, hex, stated) {
    term = int(position / 65536)
    offset = position % 65536
    whole = ""
    sent = 0
    for (left = 1 + next_below(3); left > 0; left--) {
        if (next_below(12) == 0) {
            stated = 32 * (1 + next_below(30))
            # To the end of the term, or a little past it.
            if (offset + stated > 64000) stated = 65536 - offset + 32 * (next_below(8) == 0)
            if (stated <= 0) stated = 32
            hex = pad_frame(stated, offset, 9, stream, first + term)
            left = 0
        } else {
            hex = data_frame(0, offset, 9, stream, first + term, some_payload())
            hex = front(hex, 5) some_flags() after(hex, 6)
            stated = word(hex, 0)
        }
        whole = filled(whole) hex
        sent++
        hex_at[sent] = hex
        offset_at[sent] = offset
        offset += rounded(stated)
    }
    arrives()
}
# The datagram that was made last comes, for the first time or again.
function arrives(    at, heard_as, words) {
    comes(whole)
    words = "data"
    for (at = 1; at <= sent; at++) {
        heard_as = word_for(term * 65536 + offset_at[at], hex_at[at], offset_at[at], word(hex_at[at], 0))
        words = words " " heard_as
        seen[heard_as]++
    }
    want(words)
}
# An image that joins so many terms after the initial one, whose id is 5.
function image(terms,    client, turn, kind, position, word_heard) {
    stream++
    for (client = 1; client <= 2; client++) {
        source++
        gives(now, client, add_subscription(client, 11, stream, "aeron:udp?endpoint=127.0.0.1:40123"))
        subscription_ready(client, 11, source)
    }
    source++
    first = 5 + terms
    join = terms * 65536
    comes(setup_frame(0, 9, stream, 5, first, 65536, 1408))
    want("setup " source)
    for (client = 1; client <= 2; client++)
        image_comes(client, source, source - 3 + client, 9, stream, join, "127.0.0.1:40000")
    for (position in is_taken) delete is_taken[position]
    for (position in frame_at) delete frame_at[position]
    for (position in end_at) delete end_at[position]
    for (word_heard in seen) delete seen[word_heard]
    heard = contiguous = reader[1] = reader[2] = naks = reports = 0
    gap = reported = -1
    data(0)
    for (turn = 1; turn <= 9000; turn++) {
        if (next_below(4) == 0) now += next_below(3) ? next_below(800000) : next_below(90000000)
        kind = next_below(20)
        if (kind < 9) data(place())
        else if (kind < 11) arrives()
        else if (kind < 13) polls(1, next_below(8) ? 1 + next_below(9) : 0)
        else if (kind < 15) polls(2, next_below(40))
        else if (kind < 19) reports_due()
        else {
            position = place()
            comes(beat_frame(position % 65536, 9, stream, first + int(position / 65536)))
            want("beat")
            if (position > heard) heard = position
        }
    }
    # Each word was heard, more than three terms went by, and both kinds of report were made.
    if (seen["taken"] < 500 || seen["repeat"] < 200 || seen["overlap"] < 200 || seen["below"] < 50 || seen["beyond"] < 50 || \
        contiguous < 200000 || naks < 100 || reports < 50) {
        want("the row of numbers is no good")
    }
}
BEGIN {
    opens("allow"); closes()
    for (client = 1; client <= 2; client++) {
        say("attach 0 7")
        want("attached " client)
    }
    state = 1
    now = source = 0
    stream = 9
    image(0)
    image(2147483648 - 11)
}
