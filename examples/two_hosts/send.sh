echo 'bid 99' | aeron_policyd publish --driver /run/aeron_policyd/p1.sock 'aeron:udp?endpoint=10.1.0.5:40123' 2010
