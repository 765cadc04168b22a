printf 'bid 99\nask 101\n' | aeron_policyd publish --driver /tmp/driver/p1.sock aeron:ipc 1001
