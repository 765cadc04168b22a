# Each step of a client or the sender is decided at the moment of the registry that it goes by, whatever its own moment is.
function publication_listed(number, channel) { want("counter " number " 10001 1 " ascii(channel)) }
# All counters that the client is listed are those of the two publications, and from the moment 1000 on its own.
function listed(is_counted) {
    want("list " (is_counted ? 3 : 2))
    publication_listed(2, ipc)
    publication_listed(3, far)
    if (is_counted) want("counter 4 100 0 61")
}
function denied(rule_number) { want("denied by rule " rule_number " in policy 1") }
BEGIN {
    far = "aeron:udp?endpoint=127.0.0.1:41000"
    opens_with_moments("allow")
    rule_for_a_time("offer", "*", 1000, "", "false")
    rule_for_a_time("list", "aeron:counter", "", 1000, "false")
    rule_for_a_time("send", "*", 1000, "", "false")
    closes()
    say("attach 0 7")
    want("attached 1")
    gives(0, 1, add_subscription(1, 1, 10, ipc))
    subscription_ready(1, 1, 1)
    gives(0, 1, add_exclusive_publication(1, 2, 10, ipc))
    exclusive_ready(1, 2, 2, 1, 10)
    image_comes(1, 2, 1, 1, 10, 0, ipc)
    gives(0, 1, add_exclusive_publication(1, 3, 10, far))
    exclusive_ready(1, 3, 3, 2, 10)
    gives(0, 1, command(9, 1, 4, little(100, 4) text("") text("a")))
    counter_ready(1, 4, 4)
    # Registry 5 is at 0, and registry 6 at 1000.
    say("offer 5000 1 2 61")
    want("offer 64")
    say("list 5000 1")
    listed(0)
    say("value 5000 1 4")
    denied(2)
    say("tick 1000")
    say("offer 0 1 2 61 @5")
    want("offer 128")
    say("list 5000 1 @5")
    listed(0)
    say("offer 0 1 2 61 @6")
    denied(1)
    say("offer 0 1 2 61")
    denied(1)
    say("list 0 1")
    listed(1)
    say("value 0 1 4")
    want("value 0")
    say("send 0 3 @5")
    want("sent 127.0.0.1:41000 " setup_frame(0, 2, 10, 0, 0, 65536, 1408))
    say("send 100000001 3")
    want("withheld 127.0.0.1:41000 denied by rule 3 in policy 1")
}
