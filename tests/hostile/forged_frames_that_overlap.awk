# Two forged frames, one after the other, in each way in which two ranges may lie to one another: the first at 0 to
# 160 and the second too, each of four lengths, the second with other bytes than the first or with the same. What came first
# stays, and a reader gets it and no part of the other; where they do not meet both stay. Each pair finds an image of its own.
function tries(first, one, second, other,    meet) {
    now += 2
    say("packet " now " 127.0.0.1:40123 127.0.0.1:40000 " setup)
    source++
    want("setup " source)
    image_comes(1, source, 1, 9, 10, 0, "127.0.0.1:40000")
    say("packet " now " 127.0.0.1:40123 127.0.0.1:40000 " one)
    want("data taken")
    say("packet " now " 127.0.0.1:40123 127.0.0.1:40000 " other)
    meet = first < second + rounded(bytes_of(other)) && second < first + rounded(bytes_of(one))
    want(one == other ? "data repeat" : meet ? "data overlap" : "data taken")
    # A reader gets what stands in a row from 0 on.
    say("poll " now " 1 1 " source " 10")
    count = reached = 0
    if (first == 0) {
        gets(one)
        if (!meet && second == reached) gets(other)
    } else if (!meet && second == 0) {
        gets(other)
        if (first == reached) gets(one)
    }
    want("poll " count)
    for (at = 1; at <= count; at++) want(fragments[at])
    say("tick " now + 1)
    image_goes(1, source, 1, 10)
}
function gets(frame) {
    reached += rounded(bytes_of(frame))
    count++
    fragments[count] = "fragment " reached " c0 " after(frame, 32)
}
function repeated(byte_hex, count,    bytes) {
    for (; count > 0; count--) bytes = bytes byte_hex
    return bytes
}
BEGIN {
    say("set image-liveness 0")
    opens("allow"); closes()
    say("attach 0 7")
    want("attached 1")
    gives(0, 1, add_subscription(1, 11, 10, "aeron:udp?endpoint=127.0.0.1:40123"))
    subscription_ready(1, 11, 1)
    source = 1
    setup = setup_frame(0, 9, 10, 5, 5, 65536, 1408)
    lengths = split("33 64 65 128", length_of, " ")
    for (first = 0; first <= 160; first += 32)
        for (second = 0; second <= 160; second += 32)
            for (a = 1; a <= lengths; a++)
                for (b = 1; b <= lengths; b++)
                    for (same = 0; same <= 1; same++)
                        tries(first, data_frame(192, first, 9, 10, 5, repeated("61", length_of[a] - 32)), \
                            second, data_frame(192, second, 9, 10, 5, repeated(same ? "61" : "62", length_of[b] - 32)))
}
