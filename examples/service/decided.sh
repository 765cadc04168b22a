aeron_policyd decisions --driver /run/aeron_policyd/operator.sock --denied
