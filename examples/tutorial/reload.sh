cp next.toml /tmp/driver/policy.new
mv /tmp/driver/policy.new /tmp/driver/policy.toml
aeron_policyd reload --driver /tmp/driver/operator.sock
