# Images are allowed from the moment 1000 on. 512 subscriptions and eight logs have no pair before it, and 4,096 from then on, so
# that the ninth log is full at 0 already; then no tick brings more pairs than there may be. At 1000 all come. A policy that
# would allow a ninth log's pairs at a later moment is refused as full, and what the moment takes goes with the refusal.
BEGIN {
    opens_with_moments("allow")
    rule_for_a_time("image", "*", "", 1000, "false")
    rule_for_a_time("image", "*", 2000, "", "false")
    closes()
    say("attach 0 7")
    want("attached 1")
    for (subscription = 1; subscription <= 512; subscription++) {
        gives(0, 1, add_subscription(1, subscription, 10, ipc))
        subscription_ready(1, subscription, subscription)
    }
    for (log_number = 1; log_number <= 8; log_number++) {
        gives(0, 1, add_exclusive_publication(1, 600 + log_number, 10, ipc))
        exclusive_ready(1, 600 + log_number, 512 + log_number, log_number, 10)
    }
    gives(0, 1, add_exclusive_publication(1, 609, 10, ipc))
    error(1, 609, 1003, "full")
    say("tick 1000")
    for (log_number = 1; log_number <= 8; log_number++)
        for (subscription = 1; subscription <= 512; subscription++)
            image_comes(1, 512 + log_number, subscription, log_number, 10, 0, ipc)
    # At 2000 they go for good: there is room for a ninth log, with the images that go.
    gives(2000, 1, add_exclusive_publication(1, 610, 10, ipc))
    exclusive_ready(1, 610, 521, 9, 10)
    for (log_number = 1; log_number <= 8; log_number++)
        for (subscription = 1; subscription <= 512; subscription++)
            image_goes(1, 512 + log_number, subscription, 10)
    # a policy that allows them later only is full
    opens_with_moments("deny"); rule_for_a_time("*", "*", 5000, "", "true"); closes()
    want("policy refused: full")
    say("attach 2000 7")
    want("attached 2")
}
