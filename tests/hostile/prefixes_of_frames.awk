# Every front of a datagram of each kind, from no byte to all but the last, and then the whole. A driver has the image and
# the publication that the wholes are for, so a front that is read for more than it is would be heard. The answers are those
# of the reading rules; a front that still is a datagram, since only the filling of its last frame is cut off, is answered as
# its frames.
function comes(hex) { say("packet 0 127.0.0.1:40123 127.0.0.1:40000 " written(hex)) }

# What a datagram of data frames answers: a frame of a place at which none stood is taken, and the same again is a repeat.
function words_of_data(hex,    at, words) {
    words = "data"
    for (at = 0; at < frames; at++) {
        words = words " " (word(hex, starts[at] + 8) in stands ? "repeat" : "taken")
        stands[word(hex, starts[at] + 8)] = 1
    }
    return words
}
function prefixes(hex,    count, fault) {
    for (count = 0; count < bytes_of(hex); count++) {
        comes(front(hex, count))
        fault = datagram_fault(front(hex, count))
        want(fault == "" ? words_of_data(front(hex, count)) : "dropped " fault)
    }
    comes(hex)
}
BEGIN {
    opens("allow"); closes()
    say("attach 0 7")
    want("attached 1")
    gives(0, 1, add_subscription(1, 11, 10, "aeron:udp?endpoint=127.0.0.1:40123"))
    subscription_ready(1, 11, 1)
    gives(0, 1, add_publication(1, 12, 20, "aeron:udp?endpoint=127.0.0.1:40124"))
    publication_ready(1, 12, 2, 1, 20)

    # SETUP: the whole makes the image.
    prefixes(setup_frame(0, 9, 10, 5, 5, 65536, 1408))
    want("setup 3")
    image_comes(1, 3, 1, 9, 10, 0, "127.0.0.1:40000")
    # Data, of one frame and of two with bytes after the end of the last.
    prefixes(data_frame(192, 0, 9, 10, 5, "616263"))
    want("data taken")
    hex = filled(data_frame(128, 64, 9, 10, 5, "6465")) filled(data_frame(64, 128, 9, 10, 5, "666768696a"))
    prefixes(hex)
    want("data repeat repeat")
    # A pad is its header alone. It fills up to 512.
    prefixes(pad_frame(320, 192, 9, 10, 5))
    want("data taken")
    # Data and then a pad.
    prefixes(filled(data_frame(192, 512, 9, 10, 5, "6b")) pad_frame(32, 576, 9, 10, 5))
    want("data repeat taken")
    # A heartbeat.
    prefixes(beat_frame(608, 9, 10, 5))
    want("beat")
    # A status message, which opens the publication, and one with more bytes, which its length counts.
    prefixes(status_frame(0, 1, 20, 0, 0, 32768, 1))
    want("status 32768")
    prefixes("28" after(status_frame(0, 1, 20, 0, 0, 32768, 1), 1) "00000000")
    want("status 32768")
    # A NAK of what was sent.
    say("offer 0 1 2 78")
    want("offer 64")
    frame = filled(data_frame(192, 0, 1, 20, 0, "78"))
    say("send 0 2")
    want("sent 127.0.0.1:40124 " frame)
    prefixes(nak_frame(1, 20, 0, 0, 64))
    want("sent 127.0.0.1:40000 " frame)

    # Readers get what was whole.
    say("poll 0 1 1 3 10")
    want("poll 4")
    want("fragment 64 c0 616263")
    want("fragment 128 80 6465")
    want("fragment 192 40 666768696a")
    want("fragment 576 c0 6b")
}
