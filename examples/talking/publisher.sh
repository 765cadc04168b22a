printf 'bid 99\nask 101\n' |
    aeron_policyd publish --policy publisher.toml --as p1 --peer 127.0.0.1:40123=p2 'aeron:udp?endpoint=127.0.0.1:40123' 2010
