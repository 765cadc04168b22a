# Each byte of ADD_SUBSCRIPTION of aeron:ipc changed to each other value, 11,475 commands. One that is granted is taken back at
# once. What each is answered is said here in the words of docs/internals/COMMANDS.md.
function answer(hex, at, value,    correlation) {
    correlation = after(front(hex, 20), 12)
    # The type: of those that there are none has a layout that these bytes fit.
    if (at < 4) {
        if (word(hex, 0) in types) reply(1, "010f0000" correlation little(7, 4) text("malformed command"))
        else reply(1, "010f0000" correlation little(6, 4) text("unknown command type"))
    } else if (at < 12) reply(1, "010f0000" correlation little(1004, 4) text("wrong client"))
    # The correlation id, the other one, which has no effect, and the stream may be any.
    else if (at < 32) granted(correlation)
    # The length of the channel, which has to end where the bytes end, and its letters, which have to be ASCII.
    else if (at < 36 || value > 127) reply(1, "010f0000" correlation little(7, 4) text("malformed command"))
    # No other text of nine letters is one letter from aeron:ipc and a channel.
    else reply(1, "010f0000" correlation little(1, 4) text("invalid channel"))
}
function granted(correlation) {
    registration++
    reply(1, "070f0000" correlation little(registration, 8))
    gives(0, 1, remove_subscription(1, 7, registration))
    succeeded(1, 7)
}
BEGIN {
    split("1 2 3 4 5 6 7 8 9 10 11 14 4097", known, " ")
    for (at in known) types[known[at]] = 1
    opens("allow"); closes()
    say("attach 0 7")
    want("attached 1")
    whole = add_subscription(1, 11, 10, ipc)
    for (at = 0; at < bytes_of(whole); at++)
        for (value = 0; value < 256; value++) {
            if (value == byte(whole, at)) continue
            hex = changed(whole, at, value)
            gives(0, 1, hex)
            answer(hex, at, value)
        }
    gives(0, 1, whole)
    granted(little(11, 8))
}
