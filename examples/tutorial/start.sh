mkdir -m 700 /tmp/driver
cp policy.toml /tmp/driver/policy.toml
aeron_policyd serve --policy /tmp/driver/policy.toml --folder /tmp/driver --door p1 --door p2 --door p3
