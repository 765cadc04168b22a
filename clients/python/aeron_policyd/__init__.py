"""A client of ``aeron_policyd serve``. It takes the standard library alone.

A driver that serves has a Unix socket for each principal, and whoever may open the socket acts for its principal::

    import aeron_policyd

    with aeron_policyd.connect("/run/aeron_policyd/p1.sock") as driver:
        with driver.publication("aeron:ipc", 10) as prices:
            prices.send(b"bid 99")

    with aeron_policyd.connect("/run/aeron_policyd/p2.sock") as driver:
        with driver.subscription("aeron:ipc", 10) as prices:
            for message in prices:
                print(message)

A call raises `Denied` where the policy denies it, with the number of the rule and of the policy; another `Refused` where the
driver refuses it for another reason; and `Ended` where the connection is over, which ``connect(path, reconnect=True)`` makes
anew. ``aeron_policyd.aio`` is the same for asyncio. The logger ``aeron_policyd`` is told what goes on.

Several threads may use a connection. All times are in seconds, and `None` is without end.
"""

import logging

from aeron_policyd.codes import Code
from aeron_policyd.driver import Driver, connect
from aeron_policyd.errors import (
    BackPressure,
    Bound,
    ClientGone,
    Closed,
    Conflict,
    Denied,
    Ended,
    Full,
    InvalidChannel,
    Malformed,
    MaxPosition,
    NoLook,
    NoMemory,
    NoReply,
    NoRoom,
    NoSubscriber,
    NotOperator,
    OfferAgain,
    ProtocolError,
    QueueFull,
    Refused,
    ServiceError,
    Skipped,
    TooLong,
    Unknown,
    UsedCorrelation,
)
from aeron_policyd.kept import Counter, Messages, Publication, Subscription
from aeron_policyd.operators import clients, decisions, reload, stop
from aeron_policyd.values import (
    Buffer,
    Event,
    Gap,
    Image,
    ImagePositions,
    Message,
    Offered,
    PublicationPositions,
    Row,
)

__version__ = "1.1.0"

logging.getLogger("aeron_policyd").addHandler(logging.NullHandler())

__all__ = [
    "BackPressure",
    "Bound",
    "Buffer",
    "ClientGone",
    "Closed",
    "Code",
    "Conflict",
    "Counter",
    "Denied",
    "Driver",
    "Ended",
    "Event",
    "Full",
    "Gap",
    "Image",
    "ImagePositions",
    "InvalidChannel",
    "Malformed",
    "MaxPosition",
    "Message",
    "Messages",
    "NoLook",
    "NoMemory",
    "NoReply",
    "NoRoom",
    "NoSubscriber",
    "NotOperator",
    "OfferAgain",
    "Offered",
    "ProtocolError",
    "Publication",
    "PublicationPositions",
    "QueueFull",
    "Refused",
    "Row",
    "ServiceError",
    "Skipped",
    "Subscription",
    "TooLong",
    "Unknown",
    "UsedCorrelation",
    "clients",
    "connect",
    "decisions",
    "reload",
    "stop",
]
