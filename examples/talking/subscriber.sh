aeron_policyd subscribe --policy subscriber.toml --as p2 --count 2 'aeron:udp?endpoint=127.0.0.1:40123' 2010
