# Every front of a command of each type, from no byte to all but the last, the whole with one byte more, and then the
# whole. A front is malformed, and answered with the correlation id once all eight of its bytes are there; before that with 0.
# Each whole is granted, so its fronts would do something if they were read for it.
function prefixes(client, hex,    count) {
    for (count = 0; count < bytes_of(hex); count++) {
        gives(0, client, front(hex, count))
        error(client, count < 20 ? 0 : word(hex, 12), 7, "malformed command")
    }
    gives(0, client, hex "00")
    error(client, word(hex, 12), 7, "malformed command")
    gives(0, client, hex)
}
BEGIN {
    opens("allow"); closes()
    say("attach 0 7")
    want("attached 1")
    say("attach 0 7")
    want("attached 2")
    say("attach 0 7")
    want("attached 3")

    prefixes(1, add_publication(1, 101, 10, manual))
    publication_ready(1, 101, 1, 1, 10)
    prefixes(1, add_exclusive_publication(1, 102, 11, ipc))
    exclusive_ready(1, 102, 2, 2, 11)
    prefixes(1, add_subscription(1, 103, 10, "aeron:udp?endpoint=127.0.0.1:40123"))
    subscription_ready(1, 103, 3)
    prefixes(1, add_destination(1, 104, 1, "aeron:udp?endpoint=127.0.0.1:40124"))
    succeeded(1, 104)
    prefixes(1, remove_destination(1, 105, 1, "aeron:udp?endpoint=127.0.0.1:40124"))
    succeeded(1, 105)
    prefixes(1, command(9, 1, 106, little(100, 4) text("key") text("label")))
    counter_ready(1, 106, 4)
    prefixes(1, command(4097, 1, 107, little(4, 8) little(7, 8)))
    succeeded(1, 107)
    prefixes(1, command(10, 1, 108, little(4, 8)))
    succeeded(1, 108)
    counter_gone(1, 4)
    prefixes(1, remove_subscription(1, 109, 3))
    succeeded(1, 109)
    prefixes(1, remove_publication(1, 110, 2))
    succeeded(1, 110)
    # A keepalive that is accepted has no answer.
    prefixes(1, command(6, 1, 111, ""))
    prefixes(2, command(11, 2, 112, ""))
    succeeded(2, 112)
    prefixes(3, command(14, 3, 113, text("token")))
    succeeded(3, 113)
    say("attach 0 7")
    want("stopped")
}
