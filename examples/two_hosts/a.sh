aeron_policyd serve --policy a.toml --folder /run/aeron_policyd --door p1 \
    --setting send-address=10.1.0.4:40000 --peer 10.1.0.5:40123=p2
