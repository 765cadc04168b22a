# 512 subscriptions and nine logs without a pair, since no image is allowed. A policy that allows them all would make 4,608
# pairs: it is refused as full, and nothing is changed: the policy before is in force under its number, and no image comes.
# With one log fewer the same policy is put in force; the refused one drew no number.
function asks_for_a_counter(now, correlation) {
    gives(now, 1, command(9, 1, correlation, little(1, 4) little(0, 4) little(0, 4)))
}
BEGIN {
    opens("allow")
    rule("*", "image", "*", "false")
    rule("*", "counter", "*", "false")
    closes()
    say("attach 0 7")
    want("attached 1")
    for (subscription = 1; subscription <= 512; subscription++) {
        gives(0, 1, add_subscription(1, subscription, 10, ipc))
        subscription_ready(1, subscription, subscription)
    }
    for (log_number = 1; log_number <= 9; log_number++) {
        gives(0, 1, add_exclusive_publication(1, 600 + log_number, 10, ipc))
        exclusive_ready(1, 600 + log_number, 512 + log_number, log_number, 10)
    }
    asks_for_a_counter(0, 700)
    error(1, 700, 1001, "denied by rule 2 in policy 1")
    opens("allow"); closes()
    want("policy refused: full")
    asks_for_a_counter(0, 701)
    error(1, 701, 1001, "denied by rule 2 in policy 1")
    say("poll 0 1 1 513 10")
    want("gone")
    say("offer 0 1 513 61")
    want("offer -1")
    say("list 0 1")
    # Each log is a counter of the driver's own, with one registration.
    want("list 9")
    for (log_number = 1; log_number <= 9; log_number++) want("counter " 512 + log_number " 10001 1 " ascii(ipc))
    gives(0, 1, remove_publication(1, 702, 521))
    succeeded(1, 702)
    # It lingers, and so it is a log still.
    opens("allow"); closes()
    want("policy refused: full")
    say("tick 5000000001")
    opens("allow"); closes()
    want("policy 2")
    for (log_number = 1; log_number <= 8; log_number++)
        for (subscription = 1; subscription <= 512; subscription++)
            image_comes(1, 512 + log_number, subscription, log_number, 10, 0, ipc)
    asks_for_a_counter(5000000001, 703)
    counter_ready(1, 703, 522)
}
