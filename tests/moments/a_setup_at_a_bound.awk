# A SETUP is decided at its own moment, and the replies on images that come and go with it follow its answer: by the number of
# the log, and those that go first.
function setup(now, session) {
    say("packet " now " 127.0.0.1:40123 127.0.0.1:40000 " setup_frame(0, session, 10, 5, 5, 65536, 1408))
}
BEGIN {
    opens_with_moments("allow")
    rule_for_a_time("image", "*", "", 1000, "false")
    rule_for_a_time("image", "aeron:udp", 2000, "", "false")
    rule_for_a_time("image", "aeron:ipc", 2000, 3000, "false")
    closes()
    say("attach 0 7")
    want("attached 1")
    gives(0, 1, add_subscription(1, 1, 10, "aeron:udp?endpoint=127.0.0.1:40123"))
    subscription_ready(1, 1, 1)
    gives(0, 1, add_subscription(1, 2, 10, ipc))
    subscription_ready(1, 2, 2)
    gives(0, 1, add_exclusive_publication(1, 3, 10, ipc))
    exclusive_ready(1, 3, 3, 1, 10)
    setup(999, 9)
    want("dropped denied by rule 1 in policy 1")
    setup(1000, 9)
    want("setup 4")
    image_comes(1, 3, 2, 1, 10, 0, ipc)
    image_comes(1, 4, 1, 9, 10, 0, "127.0.0.1:40000")
    setup(1999, 9)
    want("dropped exists")
    setup(2000, 8)
    want("dropped denied by rule 2 in policy 1")
    image_goes(1, 3, 2, 10)
    image_goes(1, 4, 1, 10)
    # The image went for good: its publisher would have to be let in again.
    setup(3000, 9)
    want("dropped denied by rule 2 in policy 1")
    image_comes(1, 3, 2, 1, 10, 0, ipc)
}
