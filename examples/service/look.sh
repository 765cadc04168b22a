aeron_policyd clients --driver /run/aeron_policyd/operator.sock
aeron_policyd stat --driver /run/aeron_policyd/telemetry.sock
