# 4,096 pairs, of 64 subscriptions and 64 logs. Each event that would make one more is full: a subscription, a spy, a
# publication, an exclusive one, one that a spy waits for, a SETUP, a policy. What makes no pair is not: a log without a reader,
# a subscription without a log, and one whose image the policy denies. 4,096 are not too many, 4,097 are.
function setup() { return "packet 0 127.0.0.1:40123 127.0.0.1:40000 " setup_frame(0, 9, 20, 5, 5, 65536, 1408) }
BEGIN {
    spied = "aeron:udp?endpoint=127.0.0.1:40124"
    opens("allow")
    say("[[rule]]")
    say("name = \"no images of stream 12\"")
    say("principal = \"*\"")
    say("act = \"image\"")
    say("channel = \"*\"")
    say("stream = [12, 12]")
    say("allow = false")
    closes()
    say("attach 0 7")
    want("attached 1")
    for (number = 1; number <= 64; number++) {
        gives(0, 1, add_subscription(1, 1, 10, ipc))
        subscription_ready(1, 1, number)
    }
    for (number = 65; number <= 128; number++) {
        gives(0, 1, add_exclusive_publication(1, 2, 10, ipc))
        exclusive_ready(1, 2, number, number - 64, 10)
        for (subscription = 1; subscription <= 64; subscription++)
            image_comes(1, number, subscription, number - 64, 10, 0, ipc)
    }
    # None of these makes a pair.
    gives(0, 1, add_subscription(1, 3, 20, "aeron:udp?endpoint=127.0.0.1:40123"))
    subscription_ready(1, 3, 129)
    gives(0, 1, add_subscription(1, 4, 31, "aeron-spy:" spied))
    subscription_ready(1, 4, 130)
    gives(0, 1, add_publication(1, 5, 11, ipc))
    publication_ready(1, 5, 131, 65, 11)
    gives(0, 1, add_publication(1, 6, 30, spied))
    publication_ready(1, 6, 132, 66, 30)
    gives(0, 1, add_subscription(1, 7, 12, ipc))
    subscription_ready(1, 7, 133)
    gives(0, 1, add_publication(1, 8, 12, ipc))
    publication_ready(1, 8, 134, 67, 12)
    # Each of these would make one, or 64.
    gives(0, 1, add_subscription(1, 9, 10, ipc))
    error(1, 9, 1003, "full")
    gives(0, 1, add_exclusive_publication(1, 10, 10, ipc))
    error(1, 10, 1003, "full")
    gives(0, 1, add_publication(1, 11, 10, ipc))
    error(1, 11, 1003, "full")
    gives(0, 1, add_subscription(1, 12, 30, "aeron-spy:" spied))
    error(1, 12, 1003, "full")
    gives(0, 1, add_publication(1, 13, 31, spied))
    error(1, 13, 1003, "full")
    say(setup())
    want("dropped full")
    opens("allow"); closes()
    want("policy refused: full")
    # With 64 fewer, 64 may come, and no more.
    gives(0, 1, remove_subscription(1, 14, 64))
    succeeded(1, 14)
    gives(0, 1, add_subscription(1, 15, 10, ipc))
    subscription_ready(1, 15, 135)
    for (number = 65; number <= 128; number++) image_comes(1, number, 135, number - 64, 10, 0, ipc)
    say(setup())
    want("dropped full")
    # With 64 fewer again and one more, 64 are one too many.
    gives(0, 1, remove_subscription(1, 16, 135))
    succeeded(1, 16)
    say(setup())
    want("setup 136")
    image_comes(1, 136, 129, 9, 20, 0, "127.0.0.1:40000")
    gives(0, 1, add_subscription(1, 17, 10, ipc))
    error(1, 17, 1003, "full")
    # The others are not: what was full changed nothing.
    gives(0, 1, add_subscription(1, 18, 30, "aeron-spy:" spied))
    subscription_ready(1, 18, 137)
    image_comes(1, 132, 137, 66, 30, 0, "aeron:spy")
    gives(0, 1, add_publication(1, 19, 31, spied))
    publication_ready(1, 19, 138, 68, 31)
    image_comes(1, 138, 130, 68, 31, 0, "aeron:spy")
    opens("allow"); closes()
    want("policy 2")
    image_comes(1, 134, 133, 67, 12, 0, ipc)
}
