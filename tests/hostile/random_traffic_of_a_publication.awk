# A publication is offered messages of any length and sends them, while status messages and NAKs of any position, window and
# length come, at moments that go on by any step. What each offer, datagram and turn is answered is worked out here by the list
# of all frames, in the words of docs/internals/LOGS.md and STEPS.md. A row of numbers decides what comes.
function next_below(bound) {
    state = state * 16807 % 2147483647
    return state % bound
}
function least(one, other) { return one < other ? one : other }
function greatest(one, other) { return one > other ? one : other }
function letters(count,    bytes) {
    bytes = hex_of[97 + next_below(26)]
    while (bytes_of(bytes) < count) bytes = bytes bytes
    return front(bytes, count)
}

# ---- The list of frames: where each begins and ends, and what of it goes into a datagram

function term_of(position) { return int(position / 65536) }
function append(hex, size) {
    starts_at[frame_count] = tail
    wire[frame_count] = hex
    number_at[tail] = frame_count
    frame_count++
    tail += size
    ends_at[frame_count - 1] = tail
}
function low() { return greatest(0, term_of(tail) - 2) * 65536 }
function is_connected() { return heard >= 0 && now - heard <= 5000000000 }

function offers(count,    size, rest, left, at, piece, payload) {
    payload = letters(count)
    say("offer " decimal(now) " 1 1 " written(payload))
    if (count > 8192) { want("offer too long"); return }
    if (!is_connected()) { want("offer -1"); answered["-1"]++; return }
    if (tail >= position + 32768) { want("offer -2"); answered["-2"]++; return }
    size = int(count / 1376) * 1408
    if (count == 0 || count % 1376) size += rounded(32 + count % 1376)
    rest = 65536 - tail % 65536
    if (size > rest) {
        append(pad_frame(rest, tail % 65536, 1, 20, term_of(tail)), rest)
        want("offer -3")
        answered["-3"]++
        return
    }
    left = count
    at = 0
    do {
        piece = least(left, 1376)
        left -= piece
        append(filled(data_frame((at == 0 ? 128 : 0) + (left == 0 ? 64 : 0), tail % 65536, 1, 20, term_of(tail), \
            front(after(payload, at), piece))), rounded(32 + piece))
        at += piece
    } while (left > 0)
    want("offer " decimal(tail))
}

# ---- Turns of the sender

function sends(    budget, frame, datagram) {
    say("send " decimal(now) " 1")
    if (is_asked || !is_connected() && (setup_at < 0 || now - setup_at > 100000000)) {
        is_asked = 0
        setup_at = cut_at = now
        want("sent 127.0.0.1:40123 " setup_frame(position % 65536, 1, 20, 0, term_of(position), 65536, 1408))
        setups++
        return
    }
    budget = least(1408, greatest(0, limit - position))
    # As many frames of this term as go in; a pad ends the term, and its header alone is sent.
    if (position in number_at)
        for (frame = number_at[position]; frame < frame_count && term_of(starts_at[frame]) == term_of(position) && \
            bytes_of(datagram wire[frame]) <= budget; frame++) datagram = datagram wire[frame]
    if (datagram != "") {
        position = ends_at[frame - 1]
        cut_at = now
        want("sent 127.0.0.1:40123 " datagram)
        datagrams++
    } else if (cut_at < 0 || now - cut_at > 100000000) {
        cut_at = now
        want("sent 127.0.0.1:40123 " beat_frame(position % 65536, 1, 20, term_of(position)))
        beats++
    }
}

# ---- What receivers tell

function comes(hex) { say("packet " decimal(now) " 127.0.0.1:40000 127.0.0.1:50001 " hex) }
function status(consumed, window, is_asking) {
    comes(status_frame(is_asking ? 128 : 0, 1, 20, term_of(consumed), consumed % 65536, window, next_below(3)))
    if (is_asking) { is_asked = 1; want("elicit"); return }
    if (consumed > position) { want("dropped out-of-window"); return }
    heard = now
    limit = greatest(limit, consumed + least(window, 32768))
    want("status " decimal(limit))
}
# Whether two ranges have a position in common.
function meet(from, to, low_end, high_end) { return from < high_end && low_end < to }
function nak(from, missing,    cause, lingering, at, frame, datagram) {
    comes(nak_frame(1, 20, term_of(from), from % 65536, missing))
    cause = ""
    if (missing <= 0) cause = "empty"
    else if (from < greatest(low(), position - 65536) || from + missing > position) cause = "out-of-window"
    else {
        lingering = 0
        for (at = resent_count - 1; at >= 0 && now - resent_at[at] <= 60000000; at--) {
            lingering++
            if (meet(from, from + missing, resent_from[at], resent_to[at])) cause = "lingering"
        }
        if (cause == "" && lingering >= 16) cause = "busy"
    }
    if (cause != "") { want("dropped " cause); answered[cause]++; return }
    resent_at[resent_count] = now
    resent_from[resent_count] = from
    resent_to[resent_count] = from + missing
    resent_count++
    # The frames that meet the range, as many in a datagram as go in and are of one term.
    datagram = ""
    for (frame = 0; frame < frame_count; frame++) {
        if (!meet(from, from + missing, starts_at[frame], ends_at[frame])) continue
        if (datagram != "" && (bytes_of(datagram wire[frame]) > 1408 || \
            term_of(starts_at[frame]) != term_of(starts_at[frame - 1]))) {
            want("sent 127.0.0.1:50001 " datagram)
            datagram = ""
        }
        datagram = datagram wire[frame]
    }
    want("sent 127.0.0.1:50001 " datagram)
}
function some_position(    kind) {
    kind = next_below(10)
    if (kind < 6) return greatest(0, position - 32 * next_below(200))
    if (kind < 8) return greatest(0, position - 32 * next_below(4000))
    return 32 * next_below(int(tail / 32) + 100)
}
function some_length(    kind) {
    kind = next_below(12)
    if (kind == 0) return -next_below(3)
    if (kind == 1) return 2147483647
    if (kind < 9) return 1 + next_below(200)
    return 1 + next_below(6000)
}
BEGIN {
    opens("allow"); closes()
    say("attach 0 7")
    want("attached 1")
    gives(0, 1, add_publication(1, 11, 20, "aeron:udp?endpoint=127.0.0.1:40123"))
    publication_ready(1, 11, 1, 1, 20)
    state = 1
    now = tail = position = limit = frame_count = resent_count = is_asked = 0
    heard = setup_at = cut_at = -1
    for (turn = 1; turn <= 6000; turn++) {
        if (next_below(3) == 0) now += next_below(12) ? next_below(2000000) : next_below(300000000)
        if (next_below(400) == 0) now += 5000000001
        kind = next_below(20)
        # Once in a while there is more than goes out for a while.
        if (next_below(200) == 0) for (more = 0; more < 20; more++) offers(2000 + next_below(6000))
        if (kind < 5) offers(next_below(3) ? next_below(300) : next_below(20) ? next_below(3000) : 8190 + next_below(6))
        else if (kind < 11) sends()
        else if (kind < 14) status(greatest(0, position - 32 * next_below(30)), 32 * next_below(1100), 0)
        else if (kind == 14) status(some_position(), next_below(40000), next_below(8) == 0)
        else nak(some_position(), some_length())
    }
    # More than three terms went by, and each answer was heard.
    if (tail < 262144 || setups < 10 || beats < 10 || datagrams < 500 || resent_count < 500 || answered["-1"] < 10 || \
        answered["-2"] < 10 || answered["-3"] < 3 || answered["empty"] < 10 || answered["out-of-window"] < 10 || \
        answered["lingering"] < 10 || answered["busy"] < 10) {
        want("the row of numbers is no good")
    }
}
