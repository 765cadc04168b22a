folder=$(mktemp -d)
aeron_policyd serve --policy policy.toml --folder "$folder" --door p1 --door p2 &
until [ -S "$folder/p2.sock" ]; do sleep 0.1; done
aeron_policyd subscribe --driver "$folder/p2.sock" --count 2 aeron:ipc 10 &
reader=$!
printf 'bid 99\nask 101\n' | aeron_policyd publish --driver "$folder/p1.sock" aeron:ipc 10
wait "$reader"
echo 'bid 98' | aeron_policyd publish --driver "$folder/p2.sock" aeron:ipc 10
aeron_policyd stop --driver "$folder/operator.sock"
wait
