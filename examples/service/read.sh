aeron_policyd subscribe --driver /run/aeron_policyd/telemetry.sock aeron:ipc 1001
