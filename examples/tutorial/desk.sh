aeron_policyd subscribe --driver /tmp/driver/p2.sock --count 2 aeron:ipc 1001
