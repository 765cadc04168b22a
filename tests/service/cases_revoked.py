"""Offers that the policy allowed, and does not allow any more."""

from harness import ALLOW, PATIENT, need, same

from raw import REFUSED, TAKEN, Peer, offer, publish, subscribe

NO_OFFERS = ALLOW + """
[[rule]]
name = "p1 offers no more"
principal = "p1"
act = "offer"
channel = "*"
allow = false
"""


def case_an_offer_is_revoked_while_its_client_only_offers(room):
    """What was decided of the last offer is remembered, and not beyond the registry by which it was decided."""
    room.serve(*PATIENT)
    with Peer(room.at("p1")) as one, Peer(room.at("p2")) as two:
        one.enter(), two.enter()
        two.registered(subscribe)
        publication = one.registered(publish)
        two.image()
        for _ in range(3):
            same("an offer", TAKEN, one.ask(offer(publication, b"x", wait=1000))[0][0])
        room.policy(NO_OFFERS)
        status, _, err = room.order("reload")
        same("the reload", 0, status)
        for refused in range(4):
            answers = one.ask(offer(publication, b"x", seen=refused))
            same("an offer under the new policy", REFUSED, answers[0][0])
            need(b"denied by rule 1 in policy 2" in answers[0][-1], "the denial", answers)
