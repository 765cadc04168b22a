aeron_policyd serve --policy /etc/aeron_policyd/policy.toml --names /etc/aeron_policyd/driver.names --cases /etc/aeron_policyd/wanted.cases \
    --folder /run/aeron_policyd --door trading=$(id -u trading) --door telemetry=$(id -u telemetry)
