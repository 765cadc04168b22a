# There are at most 4,096 pairs: 512 subscriptions times 8 logs. A ninth log would make 4,608 and is full, and so is it where
# one subscription fewer is there; once one of the eight logs is gone it is not.
BEGIN {
    opens("allow"); closes()
    say("attach 0 7")
    want("attached 1")
    for (subscription = 1; subscription <= 512; subscription++) {
        gives(0, 1, add_subscription(1, subscription, 10, ipc))
        subscription_ready(1, subscription, subscription)
    }
    # A log is heard from position 0 on by each subscription, in their order.
    for (log_number = 1; log_number <= 8; log_number++) {
        gives(0, 1, add_exclusive_publication(1, 600 + log_number, 10, ipc))
        exclusive_ready(1, 600 + log_number, 512 + log_number, log_number, 10)
        for (subscription = 1; subscription <= 512; subscription++)
            image_comes(1, 512 + log_number, subscription, log_number, 10, 0, ipc)
    }
    gives(0, 1, add_exclusive_publication(1, 609, 10, ipc))
    error(1, 609, 1003, "full")
    # 511 times 9 are 4,599, still too many.
    gives(0, 1, remove_subscription(1, 610, 512))
    succeeded(1, 610)
    gives(0, 1, add_exclusive_publication(1, 611, 10, ipc))
    error(1, 611, 1003, "full")
    # A log that lingers keeps its pairs, and one that is closed has none. What was refused drew no number.
    gives(0, 1, remove_publication(1, 612, 520))
    succeeded(1, 612)
    gives(0, 1, add_exclusive_publication(1, 613, 10, ipc))
    error(1, 613, 1003, "full")
    say("tick 5000000001")
    for (subscription = 1; subscription <= 511; subscription++) image_goes(1, 520, subscription, 10)
    gives(5000000001, 1, add_exclusive_publication(1, 614, 10, ipc))
    exclusive_ready(1, 614, 521, 9, 10)
    for (subscription = 1; subscription <= 511; subscription++) image_comes(1, 521, subscription, 9, 10, 0, ipc)
}
