# A publication has at most 32 destinations, and a driver at most 64 clients. What was refused leaves all as it was: the next
# datagram goes to the 32 destinations in the order in which they were named, and the client that comes next is the 65th.
function destination(number) { return "aeron:udp?endpoint=127.0.0.1:" 41000 + number }
BEGIN {
    opens("allow"); closes()
    say("attach 0 7")
    want("attached 1")
    gives(0, 1, add_publication(1, 1, 10, manual))
    publication_ready(1, 1, 1, 1, 10)
    for (number = 1; number <= 32; number++) {
        gives(0, 1, add_destination(1, 1 + number, 1, destination(number)))
        succeeded(1, 1 + number)
    }
    gives(0, 1, add_destination(1, 34, 1, destination(33)))
    error(1, 34, 1003, "full")
    # One that is there already is a conflict, which stands before full.
    gives(0, 1, add_destination(1, 35, 1, destination(1)))
    error(1, 35, 1005, "conflict")
    # The publication is not connected and no SETUP was sent yet: one is due, of the default sizes.
    say("send 0 1")
    for (number = 1; number <= 32; number++)
        want("sent 127.0.0.1:" 41000 + number " " setup_frame(0, 1, 10, 0, 0, 65536, 1408))

    for (client = 2; client <= 64; client++) {
        say("attach 0 7")
        want("attached " client)
    }
    say("attach 0 7")
    want("full")
    gives(0, 64, command(11, 64, 1, ""))
    succeeded(64, 1)
    say("attach 0 7")
    want("attached 65")
    say("attach 0 7")
    want("full")
}
