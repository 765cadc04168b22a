# Each byte of a status message and of a NAK changed to each other value, 9,180 and 7,140 datagrams, on a publication that
# has sent one datagram of 22 frames of 64 bytes. A frame that was resent lingers for no time, and each datagram has a moment
# of its own, so the gate is as it was for each. What they do is said here in the words of docs/internals/LOGS.md.
function answer_status(hex,    position, window) {
    if (int(byte(hex, 5) / 128)) { want("elicit"); return }
    position = position_of(0, word(hex, 16), word(hex, 20), 65536)
    if (position > sent) { want("dropped out-of-window"); return }
    window = word(hex, 24) < 32768 ? word(hex, 24) : 32768
    if (position + window > limit) limit = position + window
    want("status " limit)
}
function answer_nak(hex,    from, missing, frame, datagram) {
    from = position_of(0, word(hex, 16), word(hex, 20), 65536)
    missing = signed(hex, 24)
    if (missing <= 0) { want("dropped empty"); return }
    if (from + missing > sent) { want("dropped out-of-window"); return }
    for (frame = 0; frame < 22; frame++)
        if (64 * frame < from + missing && from < 64 * (frame + 1)) datagram = datagram bytes[frame]
    want("sent 127.0.0.1:50001 " datagram)
}
function answer(hex,    fault, type) {
    fault = datagram_fault(hex)
    type = type_at(hex, 0)
    if (fault != "") want("dropped " fault)
    # Data and SETUPs are for nothing that is there.
    else if (type == DATA || type == PAD) want("dropped no-stream")
    else if (type == SETUP) want("dropped no-subscription")
    else if (word(hex, 8) != 1 || word(hex, 12) != 20) want("dropped no-stream")
    else if (type == SM) answer_status(hex)
    else answer_nak(hex)
}
function tries(hex) {
    now++
    say("packet " now " 127.0.0.1:40000 127.0.0.1:50001 " hex)
    answer(hex)
}
function change_each(whole,    at, value) {
    for (at = 0; at < bytes_of(whole); at++)
        for (value = 0; value < 256; value++)
            if (value != byte(whole, at)) tries(changed(whole, at, value))
    tries(whole)
}
BEGIN {
    say("set resend-linger 0")
    opens("allow"); closes()
    say("attach 0 7")
    want("attached 1")
    gives(0, 1, add_publication(1, 11, 20, "aeron:udp?endpoint=127.0.0.1:40123"))
    publication_ready(1, 11, 1, 1, 20)
    sent = 0
    tries(status_frame(0, 1, 20, 0, 0, 1408, 1))
    for (frame = 0; frame < 22; frame++) {
        say("offer 0 1 1 " hex_of[97 + frame])
        want("offer " 64 * (frame + 1))
        bytes[frame] = filled(data_frame(192, 64 * frame, 1, 20, 0, hex_of[97 + frame]))
        all = all bytes[frame]
    }
    say("send 0 1")
    want("sent 127.0.0.1:40123 " all)
    sent = 1408
    change_each(status_frame(0, 1, 20, 0, 704, 1000, 1))
    change_each(nak_frame(1, 20, 0, 704, 320))
}
