# Four clients of three principals publish, subscribe, spy, take back, offer, poll and look, publishers elsewhere tell of
# streams, time goes on, and one policy after another is put in force, of rules on any principal, act, channel and stream. All
# that is granted, denied, opened and closed, what is reported to each client, and the decisions of every actor, are worked out here
# from plain lists, and all pairs from the beginning after each event, in the words of docs/POLICY.md, docs/EMBEDDING.md and of
# RULES.md, SCRIPT.md and STEPS.md in docs/internals: a third of the steps of clients go by an older registry, which their line
# names. A row of numbers decides what comes.
function next_below(bound) {
    state = state * 16807 % 2147483647
    return state % bound
}
function one_of(words, at,    count) {
    count = split(words, several, " ")
    return several[at > 0 ? at : 1 + next_below(count)]
}

# ---- The policy

# Whether a pattern covers a channel: its medium, and each of its keys with that value or one that begins so.
function covers(pattern, channel,    at, count, keys, of_channel, value) {
    if (pattern == "*") return 1
    split(pattern, of_pattern, "?")
    split(channel, of_channel, "?")
    if (of_pattern[1] != of_channel[1]) return 0
    count = split(of_pattern[2], keys, "|")
    for (at = 1; at <= count; at++) {
        value = keys[at]
        if (value ~ /\*$/) {
            if (index("|" of_channel[2], "|" substr(value, 1, length(value) - 1)) == 0) return 0
        } else if (index("|" of_channel[2] "|", "|" value "|") == 0) return 0
    }
    return 1
}
# The first rule of the policy `by` that matches, or 0 for the default; what it says is in `is_allowed`.
function verdict(principal, act, channel, stream,    at) {
    for (at = 1; at <= rules[by]; at++) {
        if (rule_principal[by, at] != "*" && rule_principal[by, at] != principal) continue
        if (rule_act[by, at] != "*" && index(" " rule_act[by, at] " ", " " act " ") == 0) continue
        if (stream < rule_low[by, at] || stream > rule_high[by, at] || !covers(rule_channel[by, at], channel)) continue
        is_allowed = rule_allow[by, at]
        return at
    }
    is_allowed = default_allow[by]
    return 0
}
function text_of(at) { return (is_allowed ? "allowed by " : "denied by ") (at ? "rule " at : "default") " in policy " by }
# Asks, and keeps the decision in the actor's audit.
function asks(actor, principal, act, channel, stream,    decision) {
    decision = text_of(verdict(principal, act, channel, stream))
    audits[actor]++
    audit[actor, audits[actor]] = "decision " principal " " act " " stream " " decision
    if (!is_allowed) denials[act]++
    return decision
}
function policy(    at, acts, names) {
    epoch++
    by = epoch
    rules[by] = next_below(6)
    default_allow[by] = next_below(5) > 0
    opens(default_allow[by] ? "allow" : "deny")
    for (at = 1; at <= rules[by]; at++) {
        rule_principal[by, at] = one_of("* 1 2 3")
        rule_channel[by, at] = one_of("* * aeron:ipc aeron:udp aeron:udp?endpoint=127.0.0.1:40123 " \
            "aeron:udp?endpoint=127.0.0.1:4012* aeron:ipc?session-id=1* aeron:udp?control-mode=manual")
        names = 1 + next_below(4)
        rule_act[by, at] = ""
        acts = ""
        for (; names > 0; names--)
            rule_act[by, at] = rule_act[by, at] " " \
                one_of("publish publish-exclusive subscribe spy offer image image receive list")
        rule_act[by, at] = substr(rule_act[by, at], 2)
        if (next_below(6) == 0) rule_act[by, at] = "*"
        rule_low[by, at] = -2147483648
        rule_high[by, at] = 2147483647
        rule_allow[by, at] = default_allow[by] ? next_below(3) == 0 : next_below(3) > 0
        say("[[rule]]")
        say("name = \"of a case\"")
        say("principal = \"" (rule_principal[by, at] == "*" ? "*" : "p" rule_principal[by, at]) "\"")
        acts = rule_act[by, at]
        if (acts != "*") gsub(/ /, "\", \"", acts)
        say("act = " (rule_act[by, at] == "*" ? "\"*\"" : "[\"" acts "\"]"))
        say("channel = \"" rule_channel[by, at] "\"")
        if (next_below(3) == 0) {
            rule_low[by, at] = 9 + next_below(3)
            rule_high[by, at] = rule_low[by, at] + next_below(2)
            say("stream = [" rule_low[by, at] ", " rule_high[by, at] "]")
        }
        say("allow = " (rule_allow[by, at] ? "true" : "false"))
    }
    closes()
}

# ---- The lists. Numbers are drawn from 1 on; rows that went are deleted.

# What meets: the place of a channel, without its session.
function place_of(channel) {
    sub(/[?|]session-id=.*/, "", channel)
    return channel
}
function medium_of(channel) { return channel ~ /^aeron:ipc/ ? "ipc" : "udp" }
function fits(source, subscription) {
    if (stream_of[source] != stream_of[subscription]) return 0
    if (is_image[source]) {
        if (is_spy[subscription] || medium_of(channel_of[subscription]) == "ipc") return 0
    } else if (medium_of(channel_of[source]) == "ipc") {
        if (medium_of(channel_of[subscription]) != "ipc") return 0
    } else if (!is_spy[subscription]) return 0
    if (place_of(channel_of[source]) != place_of(channel_of[subscription])) return 0
    return !(subscription in session_stated) || session_stated[subscription] == session_of[source]
}
function image_asked(subscription) {
    return verdict(principal_of[client_of[subscription]], "image", channel_of[subscription], stream_of[subscription])
}
function origin_of(source) {
    return is_image[source] ? "127.0.0.1:40000" : medium_of(channel_of[source]) == "ipc" ? ipc : "aeron:spy"
}
function compact(list, count,    at, kept) {
    kept = 0
    for (at = 1; at <= count; at++) if (list[at] in stream_of) {
        kept++
        list[kept] = list[at]
    }
    return kept
}

# ---- After each event: who reads what, from the lists alone, and what is reported of it.
function renew(by_policy,    at, other, source, subscription, allowed, pair) {
    sources = compact(source_at, sources)
    subscriptions = compact(subscription_at, subscriptions)
    for (other = 1; other <= subscriptions; other++) {
        image_asked(subscription_at[other])
        allowed[other] = is_allowed
    }
    for (pair in now_read) delete now_read[pair]
    for (at = 1; at <= sources; at++)
        for (other = 1; other <= subscriptions; other++)
            if (allowed[other] && fits(source_at[at], subscription_at[other]))
                now_read[source_at[at], subscription_at[other]] = 1
    # Those that go. Of a subscription that went nothing is reported.
    for (at = 1; at <= reads; at++) {
        source = read_source[at]
        subscription = read_subscription[at]
        if ((source, subscription) in now_read) continue
        delete position_of_reader[source, subscription]
        if (!(subscription in stream_of)) continue
        if (by_policy) {
            asks("conductor", principal_of[client_of[subscription]], "image", channel_of[subscription], stream_of[subscription])
            taken_away++
        }
        image_goes(client_of[subscription], source, subscription, stream_of[subscription])
    }
    # Those that come.
    for (at = 1; at <= reads; at++) was_read[read_source[at], read_subscription[at]] = 1
    reads = 0
    for (pair in readers) delete readers[pair]
    for (at = 1; at <= sources; at++)
        for (other = 1; other <= subscriptions; other++) {
            source = source_at[at]
            subscription = subscription_at[other]
            if (!((source, subscription) in now_read)) continue
            reads++
            read_source[reads] = source
            read_subscription[reads] = subscription
            readers[source]++
            if ((source, subscription) in was_read) continue
            position_of_reader[source, subscription] = tail[source] + 0
            asks("conductor", principal_of[client_of[subscription]], "image", channel_of[subscription], stream_of[subscription])
            image_comes(client_of[subscription], source, subscription, session_of[source], stream_of[source], \
                tail[source] + 0, origin_of(source))
            came++
        }
    for (pair in was_read) delete was_read[pair]
    # An image that nobody reads closes.
    for (at = 1; at <= sources; at++) if (is_image[source_at[at]] && !readers[source_at[at]]) {
        forget(source_at[at])
        unread++
    }
    sources = compact(source_at, sources)
}
# An event was taken, whatever it was answered: what older looks find of the registry that it made.
function enters(    at) {
    newest++
    policy_at[newest] = epoch
    sources_at[newest] = ""
    for (at = 1; at <= sources; at++) {
        sources_at[newest] = sources_at[newest] " " source_at[at]
        value_at[newest, source_at[at]] = is_image[source_at[at]] ? readers[source_at[at]] : registered[source_at[at]]
    }
    for (at = 1; at <= reads; at++) was_pair[newest, read_source[at], read_subscription[at]] = 1
}
# The registry by which a client's next step goes, and how its line names it: mostly the newest, which needs no name.
function look_of(client,    number) {
    number = newest
    mark = ""
    if (next_below(2)) {
        if (next_below(3) == 0) number = view[client]
        else number -= next_below(newest - view[client] + 1) % 40
        mark = " @" number
        if (number < newest) older++
    }
    view[client] = number
    by = policy_at[number]
    return number
}
function forget(number) {
    delete stream_of[number]
    delete is_image[number]
    delete is_exclusive[number]
    delete lingers[number]
}
function takes_back(registration,    source) {
    source = source_of[registration]
    delete source_of[registration]
    gone_at[registration] = newest + 1
    registered[source]--
    if (registered[source] == 0) lingers[source] = now
}

# ---- Commands

function some_channel(    kind) {
    kind = next_below(8)
    if (kind < 3) return ipc
    if (kind == 3) return manual
    return "aeron:udp?endpoint=127.0.0.1:4012" 3 + next_below(2)
}
function publishes(client, act,    over, stream, decision, at, source) {
    over = some_channel()
    stream = 10 + next_below(2)
    correlation++
    gives(now, client, act == "publish" ? add_publication(client, correlation, stream, over) \
        : add_exclusive_publication(client, correlation, stream, over))
    if (!(client in is_here)) { error(client, correlation, 1004, "wrong client"); return }
    decision = asks("conductor", principal_of[client], act, over, stream)
    if (!is_allowed) { error(client, correlation, 1001, decision); return }
    source = 0
    if (act == "publish" && over != manual)
        for (at = 1; at <= sources && !source; at++)
            if (!is_image[source_at[at]] && !is_exclusive[source_at[at]] && !(source_at[at] in lingers) && \
                channel_of[source_at[at]] == over && stream_of[source_at[at]] == stream) source = source_at[at]
    # Each log takes 48 of the 4,096 pages.
    if (!source && sources >= 85) { error(client, correlation, 1006, "no room"); return }
    last++
    if (!source) {
        source = last
        channel_of[source] = over
        stream_of[source] = stream_ever[source] = stream
        session++
        session_of[source] = session
        is_exclusive[source] = act != "publish"
        type_of[source] = 10001
        sources++
        source_at[sources] = source
    } else joined++
    source_of[last] = log_of[last] = source
    owner_of[last] = client
    come_at[last] = newest + 1
    registered[source]++
    if (act == "publish") publication_ready(client, correlation, last, session_of[source], stream)
    else exclusive_ready(client, correlation, last, session_of[source], stream)
    renew(0)
}
function subscribes(client,    over, stream, act, decision, stated) {
    over = some_channel()
    act = next_below(3) && over != manual || over == ipc ? "subscribe" : "spy"
    stream = 10 + next_below(2)
    stated = next_below(6) ? 0 : 1 + next_below(session + 1)
    if (stated) over = over (over == ipc ? "?" : "|") "session-id=" stated
    correlation++
    gives(now, client, add_subscription(client, correlation, stream, (act == "spy" ? "aeron-spy:" : "") over))
    if (!(client in is_here)) { error(client, correlation, 1004, "wrong client"); return }
    decision = asks("conductor", principal_of[client], act, over, stream)
    if (!is_allowed) { error(client, correlation, 1001, decision); return }
    last++
    channel_of[last] = over
    stream_of[last] = stream
    client_of[last] = client
    is_spy[last] = act == "spy"
    if (stated) session_stated[last] = stated
    subscriptions++
    subscription_at[subscriptions] = last
    subscription_ready(client, correlation, last)
    renew(0)
}
function unpublishes(client, registration) {
    correlation++
    gives(now, client, remove_publication(client, correlation, registration))
    if (!(client in is_here)) error(client, correlation, 1004, "wrong client")
    else if (!(registration in source_of) || owner_of[registration] != client)
        error(client, correlation, 3, "unknown publication")
    else {
        succeeded(client, correlation)
        takes_back(registration)
        renew(0)
    }
}
function unsubscribes(client, registration) {
    correlation++
    gives(now, client, remove_subscription(client, correlation, registration))
    if (!(client in is_here)) error(client, correlation, 1004, "wrong client")
    else if (!(registration in client_of) || !(registration in stream_of) || client_of[registration] != client)
        error(client, correlation, 2, "unknown subscription")
    else {
        succeeded(client, correlation)
        forget(registration)
        renew(0)
    }
}
function leaves(client,    at, registration) {
    correlation++
    gives(now, client, command(11, client, correlation, ""))
    if (!(client in is_here)) { error(client, correlation, 1004, "wrong client"); enters(); return }
    succeeded(client, correlation)
    for (registration = 1; registration <= last; registration++) {
        if (registration in source_of && owner_of[registration] == client) takes_back(registration)
        else if (registration in client_of && registration in stream_of && client_of[registration] == client)
            forget(registration)
    }
    delete is_here[client]
    here_to[client] = newest + 1
    renew(0)
    enters()
    attaches(principal_of[client])
}
function attaches(principal) {
    say("attach " decimal(now) " " principal)
    clients++
    want("attached " clients)
    is_here[clients] = 1
    principal_of[clients] = principal
    here_from[clients] = newest + 1
    enters()
    view[clients] = newest
    # The one that left goes on being tried now and then.
    handle[1 + next_below(4)] = clients
}

# ---- The other events

function setup(    local, stream, remote, at, lowest, source) {
    local = 40123 + next_below(2)
    stream = 10 + next_below(2)
    remote = 1 + next_below(session + 4)
    say("packet " decimal(now) " 127.0.0.1:" local " 127.0.0.1:40000 " setup_frame(0, remote, stream, 5, 5, 65536, 1408))
    source = last + 1
    channel_of[source] = "aeron:udp?endpoint=127.0.0.1:" local
    stream_of[source] = stream_ever[source] = stream
    session_of[source] = remote
    is_image[source] = 1
    type_of[source] = 10002
    lowest = 0
    for (at = 1; at <= sources; at++)
        if (is_image[source_at[at]] && channel_of[source_at[at]] == channel_of[source] && \
            stream_of[source_at[at]] == stream && session_of[source_at[at]] == remote) { want("dropped exists"); forget(source); return }
    for (at = 1; at <= subscriptions; at++) if (fits(source, subscription_at[at])) {
        if (!lowest) lowest = subscription_at[at]
        image_asked(subscription_at[at])
        if (is_allowed) break
    }
    if (!lowest) { want("dropped no-subscription"); forget(source); return }
    if (at > subscriptions) {
        want("dropped " text_of(image_asked(lowest)))
        setups_denied++
        forget(source)
        return
    }
    if (sources >= 85) { want("dropped no-room"); forget(source); return }
    last++
    made_at[source] = now
    sources++
    source_at[sources] = source
    want("setup " source)
    renew(0)
}
function ticks(    at, source) {
    say("tick " decimal(now))
    for (at = 1; at <= sources; at++) {
        source = source_at[at]
        if (is_image[source] ? now - made_at[source] > 5000 : source in lingers && now - lingers[source] > 3000) forget(source)
    }
    renew(0)
}
function reloads() {
    policy()
    want("policy " epoch)
    renew(1)
}

# ---- Steps of clients

# Whether a registration was there in a registry, and a client.
function had(number, registration) {
    return registration in log_of && come_at[registration] <= number && \
        !(registration in gone_at && gone_at[registration] <= number)
}
function was_here(number, client) { return here_from[client] <= number && !(client in here_to && here_to[client] <= number) }

function offers(client, registration,    number, source, decision, at, least) {
    message = (message + 1) % 256
    number = look_of(client)
    say("offer " decimal(now) " " client " " registration " " hex_of[message] mark)
    source = log_of[registration]
    if (!had(number, registration) || owner_of[registration] != client || !(source in stream_of)) { want("offer -4"); return }
    decision = asks(client, principal_of[client], "offer", channel_of[source], stream_of[source])
    if (!is_allowed) { want(decision); return }
    # Whoever reads the log reads it now.
    if (medium_of(channel_of[source]) == "udp" || !readers[source]) { want("offer -1"); return }
    least = tail[source] + 0
    for (at = 1; at <= reads; at++)
        if (read_source[at] == source && position_of_reader[source, read_subscription[at]] < least)
            least = position_of_reader[source, read_subscription[at]]
    if (tail[source] >= least + 32768) { want("offer -2"); return }
    said[source, tail[source] + 0] = hex_of[message]
    tail[source] += 64
    want("offer " tail[source])
    taken++
    if (number < newest) taken_by_older++
}
function polls(client, subscription, source, count,    number, decision, rows, from) {
    number = look_of(client)
    say("poll " decimal(now) " " client " " subscription " " source " " count mark)
    # It was a pair, and the log has a position for it now.
    if (!((number, source, subscription) in was_pair) || client_of[subscription] != client || \
        !((source, subscription) in now_read)) { want("gone"); return }
    decision = asks(client, principal_of[client], "receive", channel_of[subscription], stream_of[subscription])
    if (!is_allowed) { want(decision); return }
    from = position_of_reader[source, subscription]
    rows = (tail[source] - from) / 64
    if (rows > count) rows = count
    want("poll " rows)
    for (; rows > 0; rows--) {
        want("fragment " from + 64 " c0 " said[source, from])
        from += 64
        polled++
    }
    position_of_reader[source, subscription] = from
}
function looks(client,    number, at, count, there, source, decision, rows, row) {
    number = look_of(client)
    say("list " decimal(now) " " client mark)
    if (!was_here(number, client)) { want("wrong client"); return }
    rows = 0
    count = split(substr(sources_at[number], 2), there, " ")
    for (at = 1; at <= count; at++) {
        source = there[at]
        decision = text_of(verdict(principal_of[client], "list", channel_of[source], stream_ever[source]))
        # What is shown is not audited.
        if (!is_allowed) {
            audits[client]++
            audit[client, audits[client]] = "decision " principal_of[client] " list " stream_ever[source] " " decision
            hidden++
        } else {
            rows++
            row[rows] = "counter " source " " type_of[source] " " \
                value_at[number, source] + 0 " " ascii(channel_of[source])
        }
    }
    want("list " rows)
    for (at = 1; at <= rows; at++) want(row[at])
}
function shows(actor,    at, first) {
    say("audit " actor)
    first = audits[actor] > 4096 ? audits[actor] - 4096 : 0
    want("audit " audits[actor] - first " dropped " first)
    for (at = first + 1; at <= audits[actor]; at++) want(audit[actor, at])
}
function some(count) { return count ? 1 + next_below(count) : 0 }
# Whether what was drawn is an event, and not a step of a client.
function events(kind, client,    at) {
    if (kind < 3) publishes(client, "publish")
    else if (kind < 5) publishes(client, "publish-exclusive")
    else if (kind < 12) subscribes(client)
    else if (kind < 14) unpublishes(client, some(last))
    else if (kind == 14) {
        at = some(last)
        if (!(at in source_of)) return 0
        unpublishes(owner_of[at], at)
    } else if (kind < 17) {
        if (!subscriptions) return 0
        at = subscription_at[some(subscriptions)]
        unsubscribes(next_below(4) ? client_of[at] : client, at)
    } else if (kind < 22) setup()
    else if (kind < 24) reloads()
    else if (kind < 26) ticks()
    else return 0
    return 1
}
function steps(    client, kind, at, tries) {
    kind = next_below(40)
    by = epoch
    client = handle[1 + next_below(4)]
    if (kind < 26) {
        if (events(kind, client)) enters()
    } else if (kind < 32) {
        # Mostly by a registration that is there, with a log that has a reader.
        at = some(last)
        for (tries = next_below(60); tries > 0 && !(at in source_of && readers[source_of[at]]); tries--) at = some(last)
        offers(at in source_of && next_below(8) ? owner_of[at] : client, at)
    } else if (kind < 38) {
        if (reads && next_below(8)) {
            at = some(reads)
            polls(client_of[read_subscription[at]], read_subscription[at], read_source[at], next_below(4))
        } else polls(client, some(last), some(last), 3)
    } else if (kind == 38) looks(client)
    else if (next_below(4) == 0) leaves(client)
}
BEGIN {
    state = 1
    now = last = sources = subscriptions = reads = session = clients = epoch = message = correlation = 0
    for (principal = 1; principal <= 3; principal++) say("principal p" principal " " principal)
    say("set linger 3000")
    say("set image-liveness 5000")
    say("set client-liveness 9000000000000000000")
    newest = 0
    policy()
    policy_at[0] = epoch
    for (at = 1; at <= 4; at++) { attaches(one_of("1 2 3 3", at)); handle[at] = at }
    for (turn = 1; turn <= 2000; turn++) {
        if (next_below(3) == 0) now += next_below(400)
        steps()
    }
    shows("conductor")
    for (client = 1; client <= clients; client++) shows(client)
    # Much of each kind was granted and denied, came and went.
    if (came < 300 || taken_away < 50 || unread < 20 || joined < 20 || setups_denied < 10 || taken < 30 || polled < 20 || \
        older < 300 || taken_by_older < 10 || hidden < 20 || denials["publish"] < 10 || denials["publish-exclusive"] < 10 || denials["subscribe"] < 10 || \
        denials["spy"] < 10 || denials["offer"] < 10 || denials["receive"] < 10) want("the row of numbers is no good")
}
