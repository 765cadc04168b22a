printf 'bid 99\nask 101\n' |
    aeron_policyd publish --policy two_addresses.toml --to 10.1.0.5:40123 --to 10.1.0.6:40123 'aeron:udp?control-mode=manual' 2010
