echo 'bid 0' | aeron_policyd publish --driver /run/aeron_policyd/telemetry.sock aeron:ipc 1001
