echo 'bid 99' | aeron_policyd publish --driver /run/aeron_policyd/trading.sock aeron:ipc 1001
