aeron_policyd stop --driver /tmp/driver/operator.sock
