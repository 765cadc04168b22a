# The replies on images that come and go with the moment of an attach follow its answer, also where it is full.
BEGIN {
    opens_with_moments("allow")
    rule_for_a_time("image", "*", "", 1000, "false")
    rule_for_a_time("image", "*", 2000, 3000, "false")
    closes()
    for (client = 1; client <= 63; client++) {
        say("attach 0 7")
        want("attached " client)
    }
    gives(0, 1, add_subscription(1, 1, 10, ipc))
    subscription_ready(1, 1, 1)
    gives(0, 2, add_exclusive_publication(2, 1, 10, ipc))
    exclusive_ready(2, 1, 2, 1, 10)
    say("attach 999 7")
    want("attached 64")
    say("attach 1000 7")
    want("full")
    image_comes(1, 2, 1, 1, 10, 0, ipc)
    say("attach 1000 7")
    want("full")
    gives(1999, 64, command(11, 64, 1, ""))
    succeeded(64, 1)
    say("attach 2000 7")
    want("attached 65")
    image_goes(1, 2, 1, 10)
    # A moment before one that was seen is the one seen.
    say("attach 1500 7")
    want("full")
    say("attach 3000 7")
    want("full")
    image_comes(1, 2, 1, 1, 10, 0, ipc)
}
