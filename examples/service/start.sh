mkdir -m 755 /run/aeron_policyd
aeron_policyd serve --policy /etc/aeron_policyd/policy.toml --names /etc/aeron_policyd/driver.names --folder /run/aeron_policyd \
    --door trading=$(id -u trading) --door telemetry=$(id -u telemetry)
