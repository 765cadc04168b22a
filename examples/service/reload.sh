cp next.toml /etc/aeron_policyd/policy.new
mv /etc/aeron_policyd/policy.new /etc/aeron_policyd/policy.toml
aeron_policyd reload --driver /run/aeron_policyd/operator.sock
