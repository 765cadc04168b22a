aeron_policyd serve --policy b.toml --folder /run/aeron_policyd --door p2
