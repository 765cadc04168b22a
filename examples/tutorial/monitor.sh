aeron_policyd subscribe --driver /tmp/driver/p3.sock --count 2 aeron:ipc 1001
