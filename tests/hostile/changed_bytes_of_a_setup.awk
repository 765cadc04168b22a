# Each byte of a SETUP changed to each other value, 10,200 datagrams. Every one finds a driver with one subscription, of
# 127.0.0.1:40123 and stream 10, and without an image: one that makes an image is followed by a tick at which that image is
# silent. What a SETUP may say, where it joins and what it makes is said here in the words of docs/internals/RULES.md.

# Whether a sender may send it: the lengths, the place, and how many terms came before.
function is_bad_setup(hex,    term_length, mtu, terms) {
    term_length = signed(hex, 28)
    mtu = signed(hex, 32)
    terms = (word(hex, 24) - word(hex, 20) + 4294967296) % 4294967296
    return !(term_length in term_lengths) || mtu < 64 || mtu > 65504 || mtu % 32 || word(hex, 8) >= term_length || \
        terms >= 2147483648
}
function answer_setup(hex,    pages, session) {
    if (is_bad_setup(hex)) { want("dropped bad-setup"); return }
    if (word(hex, 16) != 10) { want("dropped no-subscription"); return }
    # Three terms have to lie in the 4,096 pages of the arena, which is free.
    if (3 * word(hex, 28) / 4096 > 4096) { want("dropped no-room"); return }
    source++
    want("setup " source)
    session = word(hex, 12)
    image_comes(1, source, 1, session, 10, position_of(word(hex, 20), word(hex, 24), word(hex, 8), word(hex, 28)), \
        "127.0.0.1:40000")
    say("tick " now + 1)
    image_goes(1, source, 1, 10)
    made++
}
function answer(hex,    fault, type) {
    fault = datagram_fault(hex)
    type = type_at(hex, 0)
    if (fault != "") want("dropped " fault)
    else if (type == SETUP) answer_setup(hex)
    # As data, a NAK or a status message it is for nothing that is there.
    else want("dropped no-stream")
}
BEGIN {
    for (value = 65536; value <= 16777216; value *= 2) term_lengths[value] = 1
    say("set image-liveness 0")
    opens("allow"); closes()
    say("attach 0 7")
    want("attached 1")
    gives(0, 1, add_subscription(1, 11, 10, "aeron:udp?endpoint=127.0.0.1:40123"))
    subscription_ready(1, 11, 1)
    source = 1
    whole = setup_frame(0, 9, 10, 5, 5, 65536, 1408)
    for (at = 0; at < bytes_of(whole); at++)
        for (value = 0; value < 256; value++) {
            if (value == byte(whole, at)) continue
            now += 2
            hex = changed(whole, at, value)
            say("packet " now " 127.0.0.1:40123 127.0.0.1:40000 " hex)
            answer(hex)
        }
    # As it stands it makes an image still.
    now += 2
    say("packet " now " 127.0.0.1:40123 127.0.0.1:40000 " whole)
    answer(whole)
}
