"""Two owners share a driver: a gateway (p1) publishes prices, and a desk (p2) reads them and may do no more.

    python3 example.py FOLDER

FOLDER has the sockets of a driver that serves under the policy ``examples/serving/policy.toml``.
"""

import sys

import aeron_policyd


def main(folder: str) -> None:
    """Has both owners in one process; as a rule each is a service of a user of its own."""
    with aeron_policyd.connect(folder + "/p2.sock") as desk, aeron_policyd.connect(folder + "/p1.sock") as gateway:
        prices = desk.subscription("aeron:ipc", 10)
        publication = gateway.publication("aeron:ipc", 10)
        for price in (b"bid 99", b"ask 101"):
            publication.send(price)
        for message in prices.messages(timeout=1.0):
            if isinstance(message, aeron_policyd.Gap):
                print("something was lost:", message.why)
            else:
                print("the desk reads:", message.data.decode())
        try:
            desk.publication("aeron:ipc", 10)
        except aeron_policyd.Denied as denied:
            print("the desk may not publish:", denied)
            print("rule:", denied.rule, "policy:", denied.policy)


if __name__ == "__main__":
    try:
        main(sys.argv[1])
    except (aeron_policyd.ServiceError, OSError) as error:
        sys.exit("example.py: %s" % error)
