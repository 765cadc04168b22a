aeron_policyd subscribe --policy subscriber.toml --as p2 --control 127.0.0.1:40130 --session 7 \
    --until-gone --setting image-liveness=5000000000 'aeron:udp?endpoint=127.0.0.1:40131' 2010
