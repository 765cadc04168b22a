aeron_policyd stop --driver /run/aeron_policyd/operator.sock
