# Logs of publications and images of every length of term that fits come and go, by turns that a row of numbers decides, in
# one region of 1,024 pages. A log lies in one piece, at the least place that is free; where there is none it is answered that
# there is no room, and nowhere else. The region is kept here page by page.

# The next number of the row, from 0 on and below a bound (the generator of Park and Miller).
function next_below(bound) {
    state = state * 16807 % 2147483647
    return state % bound
}
# The least place at which so many pages are free in a row, or -1.
function place_of(pages,    place, run, free) {
    run = free = 0
    for (place = 0; place < 1024; place++) {
        run = place in taken ? 0 : run + 1
        free += !(place in taken)
        if (run == pages) return place - pages + 1
    }
    refused++
    if (free >= pages) in_pieces++
    return -1
}
function take(registration, place, pages,    at) {
    for (at = place; at < place + pages; at++) taken[at] = 1
    place_at[registration] = place
    pages_at[registration] = pages
    live[++lives] = registration
}
function give(number,    registration, at) {
    registration = live[number]
    for (at = 0; at < pages_at[registration]; at++) delete taken[place_at[registration] + at]
    live[number] = live[lives--]
}
function publishes(term_length,    place) {
    # Each is exclusive, so each makes a log.
    gives(now, 1, add_exclusive_publication(1, 7, 10, ipc "?term-length=" term_length))
    place = place_of(3 * term_length / 4096)
    if (place < 0) { error(1, 7, 1006, "no room"); return }
    registration++
    session++
    exclusive_ready(1, 7, registration, session, 10)
    stream_at[registration] = 0
    take(registration, place, 3 * term_length / 4096)
}
# An image has a stream, and so a subscription, of its own.
function images(term_length,    place, subscription) {
    stream++
    gives(now, 1, add_subscription(1, 8, stream, "aeron:udp?endpoint=127.0.0.1:40123"))
    registration++
    subscription = registration
    subscription_ready(1, 8, subscription)
    say("packet " now " 127.0.0.1:40123 127.0.0.1:40000 " setup_frame(0, 9, stream, 5, 5, term_length, 1408))
    place = place_of(3 * term_length / 4096)
    if (place < 0) {
        want("dropped no-room")
        gives(now, 1, remove_subscription(1, 9, subscription))
        succeeded(1, 9)
        return
    }
    registration++
    want("setup " registration)
    image_comes(1, registration, subscription, 9, stream, 0, "127.0.0.1:40000")
    stream_at[registration] = stream
    subscription_at[registration] = subscription
    take(registration, place, 3 * term_length / 4096)
}
# One of those that live goes: a publication lingers for no time, an image has no reader left, and nothing is reported.
function goes(    number, gone) {
    number = 1 + next_below(lives)
    gone = live[number]
    now += 1
    if (stream_at[gone]) {
        gives(now, 1, remove_subscription(1, 10, subscription_at[gone]))
        succeeded(1, 10)
    } else {
        gives(now, 1, remove_publication(1, 11, gone))
        succeeded(1, 11)
        now += 1
        say("tick " now)
    }
    give(number)
}
BEGIN {
    say("set arena-pages 1024")
    say("set linger 0")
    opens("allow"); closes()
    say("attach 0 7")
    want("attached 1")
    state = 1
    now = 0
    stream = 100
    for (turn = 1; turn <= 3000; turn++) {
        # Twice as many come as go, of 48 to 768 pages; the shorter ones are more often asked for.
        kind = next_below(3)
        term_length = 65536
        while (term_length < 1048576 && next_below(2)) term_length *= 2
        if (kind == 0 && lives > 0) goes()
        else if (kind == 1) publishes(term_length)
        else images(term_length)
    }
    # A region that was always empty, or always full, or never in pieces, would have shown nothing.
    if (refused < 500 || in_pieces < 100 || registration < 500) want("the row of numbers is no good")
}
