# Each byte of a data frame changed to each other value, 8,925 datagrams. Every one finds an image of its own, which joined at
# 0 and has no frame yet; then a reader polls, and a tick finds the image silent. Terms have 65,536 bytes, so the window is
# half of that. What the frame is answered is said here in the words of docs/internals/RULES.md.
function answer(hex,    fault, position, payload) {
    polled = ""
    fault = datagram_fault(hex)
    if (fault != "") { want("dropped " fault); return }
    # As anything else than data it would be for nothing that is there.
    if (type_at(hex, 0) != DATA || word(hex, 12) != 9 || word(hex, 16) != 10) { want("dropped no-stream"); return }
    position = position_of(5, word(hex, 20), word(hex, 8), 65536)
    if (position >= 32768 || word(hex, 8) + rounded(word(hex, 0)) > 65536) { want("data beyond"); return }
    want("data taken")
    # Where it begins at the reader's position the reader gets it: with its flags, without what stands after its end.
    if (position > 0) return
    payload = after(front(hex, word(hex, 0)), 32)
    polled = "fragment " rounded(word(hex, 0)) " " hex_of[byte(hex, 5)] " " written(payload)
}
function tries(hex) {
    now += 2
    say("packet " now " 127.0.0.1:40123 127.0.0.1:40000 " setup)
    source++
    want("setup " source)
    image_comes(1, source, 1, 9, 10, 0, "127.0.0.1:40000")
    say("packet " now " 127.0.0.1:40123 127.0.0.1:40000 " hex)
    answer(hex)
    say("poll " now " 1 1 " source " 10")
    want("poll " (polled != ""))
    if (polled != "") want(polled)
    say("tick " now + 1)
    image_goes(1, source, 1, 10)
}
BEGIN {
    say("set image-liveness 0")
    opens("allow"); closes()
    say("attach 0 7")
    want("attached 1")
    gives(0, 1, add_subscription(1, 11, 10, "aeron:udp?endpoint=127.0.0.1:40123"))
    subscription_ready(1, 11, 1)
    source = 1
    setup = setup_frame(0, 9, 10, 5, 5, 65536, 1408)
    whole = data_frame(192, 0, 9, 10, 5, "616263")
    for (at = 0; at < bytes_of(whole); at++)
        for (value = 0; value < 256; value++)
            if (value != byte(whole, at)) tries(changed(whole, at, value))
    tries(whole)
}
