price=100
while [ "$price" -lt 108 ]; do
    echo "bid $price"
    price=$((price + 1))
    sleep 1
done |
    aeron_policyd publish --policy publisher.toml --as p1 --setting first-session=7 \
        --peer 127.0.0.1:40131=p2 --peer 127.0.0.1:40132=p2 --peer 127.0.0.1:40133=p2 \
        'aeron:udp?control-mode=dynamic|control=127.0.0.1:40130' 2010
