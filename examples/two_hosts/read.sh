aeron_policyd subscribe --driver /run/aeron_policyd/p2.sock --count 1 'aeron:udp?endpoint=10.1.0.5:40123' 2010
