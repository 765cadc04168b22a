aeron_policyd subscribe --policy subscriber.toml --as p2 --control 127.0.0.1:40130 --session 7 \
    --count 3 'aeron:udp?endpoint=127.0.0.1:40132' 2010
