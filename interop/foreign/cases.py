#!/usr/bin/env python3
"""Writes cases of ends against the frames of a foreign peer, with bytes of an encoder that knows nothing of the program.

What has to come is worked out here by the rules of OASIS AMQP 1.0 (and, where that is silent, of docs/DECISIONS.md), case by case.
Run at the top: interop/foreign/cases.py > crates/end_cases/data/foreign.ends
"""
import os, sys
sys.path.insert(0, os.path.dirname(os.path.abspath(__file__)))
from encoder import *

CASES = []


class Case:
    """The lines of a case, and what each comes to."""

    def __init__(self, title, who="c"):
        self.title, self.who, self.lines, self.wanted, self.moment = title, who, [], [], 0
        CASES.append(self)

    def call(self, words, *replies, wrote=""):
        """A call: what it and earlier calls are answered, and the bytes that are written."""
        return self.step(f"{self.who} {self.moment} {words}", replies, wrote)

    def hears(self, *frames, replies=(), wrote=""):
        return self.step(f"{self.who} {self.moment} hears {''.join(frames)}", replies, wrote)

    def step(self, line, replies, wrote):
        at = len(self.lines)
        self.lines.append(line)
        self.wanted += [f"{at} {it.replace('@', str(at))}" for it in replies]
        if wrote:
            self.wanted.append(f"{at} wrote {wrote}")
        return self


def client(title, begin=""):
    """A client with a session: 0 is the open, 2 the begin; the peer's channel is 4."""
    it = Case(title)
    it.call("open id=c", "@ pending", wrote=HEADER)
    it.hears(HEADER, frame(0, Open("p")), replies=["0 connection"], wrote=frame(0, Open("c")))
    words = dict(p.split("=") for p in begin.split())
    own = Begin(None, int(words.get("next", 0)), int(words.get("window", 2048)), 2048, int(words.get("handles", 255)))
    it.call("begin" + (" " + begin if begin else ""), "@ pending", wrote=frame(0, own))
    it.hears(frame(4, Begin(0)), replies=["2 session"])
    return it


def sending(title, credit=10, max=None, snd=None, rcv=None):
    """A client with a sender: 4 is the attach; the peer's handle is 9."""
    it = client(title)
    words = "sender 2 name=s target=q" + (f" snd={snd}" if snd else "") + (f" rcv={rcv}" if rcv else "")
    s = {"unsettled": 0, "settled": 1, None: None}[snd]
    r = {"second": 1, None: None}[rcv]
    it.call(words, "@ pending", wrote=frame(0, Attach("s", 0, SENDER, Source(), Target("q"), idc=0, snd=s, rcv=r)))
    it.hears(frame(4, Attach("s", 9, RECEIVER, Source(), Target("q"), snd=s, rcv=r, max=max)), replies=["4 sender"])
    if credit is not None:
        it.hears(frame(4, Flow(0, 2048, 0, 2048, 9, 0, credit)))
    return it


def receiving(title, credit=10, max=None, rcv=None):
    """A client with a receiver: 4 is the attach; the peer's handle is 9, and it has that much credit."""
    it = client(title)
    words = "receiver 2 name=r source=q credit=manual" + (f" max={max}" if max else "") + (f" rcv={rcv}" if rcv else "")
    r = {"second": 1, None: None}[rcv]
    it.call(words, "@ pending", wrote=frame(0, Attach("r", 0, RECEIVER, Source("q"), Target(), max=max, rcv=r)))
    it.hears(frame(4, Attach("r", 9, SENDER, Source("q"), Target(), idc=0, rcv=r)), replies=["4 receiver"])
    if credit is not None:
        it.call(f"set_credit 4 {credit}", "@ done", wrote=frame(0, Flow(0, 2048, 0, 2048, 0, 0, credit)))
    return it


def accepting(title, handles=255):
    """A listener with a session: 0 is the accept, 2 the accept_session; the peer's channel is 4."""
    it = Case(title, "l")
    it.call("accept id=l", "@ pending", wrote=HEADER)
    it.hears(HEADER, frame(0, Open("p")), replies=["0 connection"], wrote=frame(0, Open("l")))
    it.call("accept_session" + (f" handles={handles}" if handles != 255 else ""), "@ pending")
    return it.hears(frame(4, Begin(None)), replies=["2 session"], wrote=frame(0, Begin(4, hmax=handles)))


def tag(n):
    return n.to_bytes(4, "big")


def ended(condition):
    """The End of a session that was not kept to (part 2, section 2.7.7)."""
    return frame(0, End(Error(condition)))


def stopped(condition):
    """The Close of a connection that was not kept to (part 2, section 2.7.9)."""
    return frame(0, Close(Error(condition)))


def closed_for(condition):
    """The closing Detach of a link (part 2, section 2.7.6)."""
    return frame(0, Detach(0, True, Error(condition)))


M = text("m")
m = M.hex()

# ---- handles that no link has (part 2, section 2.8.17, session errors)
for what, body, payload in [("a Transfer", Transfer(7, 0, tag(0), 0), M), ("a Flow", Flow(0, 9, 0, 9, 7, 0, 1), b""), ("a Detach", Detach(7, True), b"")]:
    client(f"{what} on a handle that no link has").hears(frame(4, body, payload), wrote=ended("amqp:session:unattached-handle"))
sending("an Attach on a handle in use").hears(frame(4, Attach("t", 9, RECEIVER, Source(), Target("q"))), wrote=ended("amqp:session:handle-in-use"))
client("an Attach that answers none of a client's").hears(frame(4, Attach("t", 9, RECEIVER, Source(), Target("q"))), wrote=ended("amqp:not-found"))
sending("an Attach of the name of a link in the role that this end has").hears(frame(4, Attach("s", 8, SENDER, Source(), Target("q"), idc=0)), wrote=ended("amqp:not-found"))
sending("a Transfer to a sender").hears(frame(4, Transfer(9, 0, tag(0), 0), M), wrote=ended("amqp:not-allowed"))

# ---- channels (part 2, sections 2.5 and 2.7.2)
client("a Transfer on a channel that no session has").hears(frame(5, Transfer(0, 0, tag(0), 0), M), wrote=frame(0, Close(Error("amqp:not-found"))))
client("an End on a channel that no session has").hears(frame(5, End()), wrote=frame(0, Close(Error("amqp:not-found"))))
client("a Begin of the peer at a client").hears(frame(5, Begin(None)), wrote=frame(0, Close(Error("amqp:not-implemented"))))
client("a second answer to one Begin").hears(frame(5, Begin(0)), wrote=frame(0, Close(Error("amqp:illegal-state"))))
client("a Begin on a channel that is taken").hears(frame(4, Begin(0)), wrote=frame(0, Close(Error("amqp:illegal-state"))))
client("an answer to the Begin of a session that is ended").hears(frame(4, End()), wrote=frame(0, End())) \
    .hears(frame(4, Begin(0)), wrote=frame(0, Close(Error("amqp:not-found"))))
client("the channels of a session that is ended are taken again").hears(frame(4, End()), wrote=frame(0, End())) \
    .call("begin", "@ pending", wrote=frame(0, Begin(None))).hears(frame(4, Begin(0)), replies=["5 session"])
client("a frame on a channel above the channel-max of both").hears(frame(256, End()), wrote=frame(0, Close(Error("amqp:connection:framing-error"))))
client("an answer on a channel above it").hears(frame(256, Begin(0)), wrote=frame(0, Close(Error("amqp:connection:framing-error"))))
client("a frame on the highest channel, which no session has").hears(frame(255, End()), wrote=frame(0, Close(Error("amqp:not-found"))))

# ---- handles above the handle-max that this end has announced (part 2, section 2.7.2): the connection is closed with framing-error
for what, body, payload in [("an Attach", Attach("t", 8, RECEIVER, Source(), Target("q")), b""), ("a Transfer", Transfer(8, 0, tag(0), 0), M),
                            ("a Flow", Flow(0, 9, 0, 9, 8, 0, 1), b""), ("a Detach", Detach(8, True), b"")]:
    client(f"{what} with a handle above the handle-max of this end", "handles=7").hears(frame(4, body, payload), wrote=stopped("amqp:connection:framing-error"))
client("a Detach of the highest handle, which no link has", "handles=7").hears(frame(4, Detach(7, True)), wrote=ended("amqp:session:unattached-handle"))
client("a handle above it on a channel that no session has", "handles=7").hears(frame(5, Detach(8, True)), wrote=stopped("amqp:not-found"))

client("a second Open").hears(frame(0, Open("p")), wrote=frame(0, Close(Error("amqp:illegal-state"))))

# ---- Flows (part 2, sections 2.5.6, 2.6.7 and 2.7.4)
client("a Flow of the session that asks for an echo").hears(frame(4, Flow(0, 5, 0, 5, echo=True)), wrote=frame(0, Flow(0, 2048, 0, 2048)))
sending("a Flow whose delivery-count is ahead of the sender's gives no credit", None).hears(frame(4, Flow(0, 2048, 0, 2048, 9, 5, 10))) \
    .call("send 4 text:m", "@ pending")
sending("a Flow whose delivery-count lies half of all numbers behind", None).hears(frame(4, Flow(0, 2048, 0, 2048, 9, 2**31, 10))) \
    .call("send 4 text:m", "@ pending")
sending("a Flow that takes all credit away").hears(frame(4, Flow(0, 2048, 0, 2048, 9, 0, 0))).call("send 4 text:m", "@ pending")
sending("a Flow of the session alone that closes the window").hears(frame(4, Flow(0, 0, 0, 2048))).call("send 4 text:m", "@ sent") \
    .hears(frame(4, Flow(0, 1, 0, 2048)), wrote=frame(0, Transfer(0, 0, tag(0), 0, False), M))

# ---- Dispositions (part 2, section 2.7.6)
sending("a Disposition of all numbers that there are").call("send 4 text:m", "@ sent", wrote=frame(0, Transfer(0, 0, tag(0), 0, False), M)) \
    .call("outcome 7", "@ pending").hears(frame(4, Disposition(RECEIVER, 0, 2**32 - 1, True, Accepted)), replies=["8 outcome accepted"])
sending("a Disposition that begins behind its end, over the end of all numbers") \
    .call("send 4 text:m", "@ sent", wrote=frame(0, Transfer(0, 0, tag(0), 0, False), M)) \
    .call("outcome 7", "@ pending").hears(frame(4, Disposition(RECEIVER, 2**32 - 1, 0, True, Released)), replies=["8 outcome released"])
sending("a Disposition of numbers that were not given").call("send 4 text:m", "@ sent", wrote=frame(0, Transfer(0, 0, tag(0), 0, False), M)) \
    .call("outcome 7", "@ pending").hears(frame(4, Disposition(RECEIVER, 1, 9, True, Accepted)))
sending("a second Disposition of a delivery says nothing") \
    .call("send 4 text:m", "@ sent", wrote=frame(0, Transfer(0, 0, tag(0), 0, False), M)) \
    .hears(frame(4, Disposition(RECEIVER, 0, None, True, Released)) + frame(4, Disposition(RECEIVER, 0, None, True, Accepted))) \
    .call("outcome 7", "@ outcome released")
sending("a Disposition that settles without a state").call("send 4 text:m", "@ sent", wrote=frame(0, Transfer(0, 0, tag(0), 0, False), M)) \
    .hears(frame(4, Disposition(RECEIVER, 0, None, True))).call("outcome 7", "@ error Send.NonTerminalDeliveryState")
sending("a Disposition that settles with Received").call("send 4 text:m", "@ sent", wrote=frame(0, Transfer(0, 0, tag(0), 0, False), M)) \
    .hears(frame(4, Disposition(RECEIVER, 0, None, True, Received(0, 0)))).call("outcome 7", "@ error Send.NonTerminalDeliveryState")
sending("a Disposition that does not settle, where the receiver settles first") \
    .call("send 4 text:m", "@ sent", wrote=frame(0, Transfer(0, 0, tag(0), 0, False), M)) \
    .hears(frame(4, Disposition(RECEIVER, 0, None, False, Accepted))).call("outcome 7", "@ pending")
receiving("a Disposition of a sender for deliveries that there are not").hears(frame(4, Disposition(SENDER, 0, 2**32 - 1, True, Accepted)))

# ---- Transfers (part 2, sections 2.6.14 and 2.7.5)
receiving("a Transfer without credit", 0).hears(frame(4, Transfer(9, 0, tag(0), 0), M)).call("recv 4", "@ error Recv.TransferLimitExceeded").call("recv 4", "@ pending")
receiving("two deliveries of one number").hears(frame(4, Transfer(9, 3, tag(0), 0), M) + frame(4, Transfer(9, 3, tag(1), 0), M)) \
    .call("recv 4", f"@ delivery 3 x00000000 x{m}").call("recv 4", f"@ delivery 3 x00000001 x{m}")
receiving("a first Transfer without delivery-id").hears(frame(4, Transfer(9, None, tag(0), 0), M)) \
    .call("recv 4", "@ error Recv.DeliveryIdIsNone", wrote=closed_for("amqp:not-allowed"))
receiving("a first Transfer without delivery-tag").hears(frame(4, Transfer(9, 0, None, 0), M)) \
    .call("recv 4", "@ error Recv.DeliveryTagIsNone", wrote=closed_for("amqp:not-allowed"))
receiving("a part of another delivery-tag").hears(frame(4, Transfer(9, 0, tag(0), 0, more=True), M[:2]) + frame(4, Transfer(9, None, tag(1)), M[2:])) \
    .call("recv 4", "@ error Recv.InconsistentFieldInMultiFrameDelivery", wrote=closed_for("amqp:not-allowed"))
receiving("a part of another delivery-id").hears(frame(4, Transfer(9, 0, tag(0), 0, more=True), M[:2]) + frame(4, Transfer(9, 1, None), M[2:])) \
    .call("recv 4", "@ error Recv.InconsistentFieldInMultiFrameDelivery", wrote=closed_for("amqp:not-allowed"))
receiving("a part of another message-format").hears(frame(4, Transfer(9, 0, tag(0), 0, more=True), M[:2]) + frame(4, Transfer(9, None, None, 1), M[2:])) \
    .call("recv 4", "@ error Recv.InconsistentFieldInMultiFrameDelivery", wrote=closed_for("amqp:not-allowed"))
receiving("a delivery in parts that repeat what they are of").hears(frame(4, Transfer(9, 0, tag(0), 0, more=True), M[:2]) + frame(4, Transfer(9, 0, tag(0), 0), M[2:])) \
    .call("recv 4", f"@ delivery 0 x00000000 x{m}")
receiving("a delivery that is taken back").hears(frame(4, Transfer(9, 0, tag(0), 0, more=True), M) + frame(4, Transfer(9, None, None, aborted=True)) + frame(4, Transfer(9, 1, tag(1), 0), M)) \
    .call("recv 4", f"@ delivery 1 x00000001 x{m}").call("credit 4", "@ credit 9")
receiving("a delivery that is taken back and was not begun").hears(frame(4, Transfer(9, 0, tag(0), 0, aborted=True), M)).call("recv 4", "@ pending")
receiving("another delivery than the one begun is taken back").hears(frame(4, Transfer(9, 0, tag(0), 0, more=True), M) + frame(4, Transfer(9, None, tag(1), aborted=True))) \
    .call("recv 4", "@ error Recv.InconsistentFieldInMultiFrameDelivery", wrote=closed_for("amqp:not-allowed"))
receiving("a delivery that is resumed and is not known").hears(frame(4, Transfer(9, 0, tag(0), 0, resume=True), M)).call("recv 4", "@ pending")
receiving("a state of a delivery without delivery-tag").hears(frame(4, Transfer(9, 0, None, 0, state=Received(0, 0)), M)) \
    .call("recv 4", "@ error Recv.DeliveryTagIsNone", wrote=closed_for("amqp:not-allowed"))
receiving("a payload that is no message").hears(frame(4, Transfer(9, 0, tag(0), 0), b"\x40")).call("recv 4", "@ error Recv.MessageDecode..")
receiving("a payload without a byte").hears(frame(4, Transfer(9, 0, tag(0), 0))).call("recv 4", "@ delivery 0 x00000000 x")
receiving("a message above the limit in one part", max=len(M) - 1).hears(frame(4, Transfer(9, 0, tag(0), 0), M)) \
    .call("recv 4", f"@ error Recv.MessageSizeExceeded {len(M)} {len(M) - 1}", wrote=closed_for("amqp:link:message-size-exceeded"))
receiving("a message above the limit in two parts", max=len(M) - 1).hears(frame(4, Transfer(9, 0, tag(0), 0, more=True), M[:2]) + frame(4, Transfer(9), M[2:])) \
    .call("recv 4", f"@ error Recv.MessageSizeExceeded {len(M)} {len(M) - 1}", wrote=closed_for("amqp:link:message-size-exceeded"))
receiving("a delivery whose receiver is to settle second, on a link where it settles first").hears(frame(4, Transfer(9, 0, tag(0), 0, rcv=1), M)) \
    .call("recv 4", "@ error Recv.IllegalRcvSettleModeInTransfer").call("recv 4", "@ pending")
receiving("a delivery that comes settled is not settled again").hears(frame(4, Transfer(9, 0, tag(0), 0, True), M)) \
    .call("recv 4", f"@ delivery 0 x00000000 x{m}").call("dispose 4 accepted 8", "@ done")

# ---- Attaches that are not as they have to be (part 2, section 2.6.3)
def attaching(title):
    it = client(title)
    return it.call("sender 2 name=s target=q", "@ pending", wrote=frame(0, Attach("s", 0, SENDER, Source(), Target("q"), idc=0)))
def attaching_receiver(title):
    it = client(title)
    return it.call("receiver 2 name=r source=q credit=manual", "@ pending", wrote=frame(0, Attach("r", 0, RECEIVER, Source("q"), Target())))
attaching("an Attach without a target, and a closing Detach behind it") \
    .hears(frame(4, Attach("s", 9, RECEIVER, Source(), None))) \
    .hears(frame(4, Detach(9, True)), replies=["4 error SenderAttach.IncomingTargetIsNone"], wrote=frame(0, Detach(0, True)))
attaching("an Attach without a target, and a closing Detach with an error behind it") \
    .hears(frame(4, Attach("s", 9, RECEIVER, Source(), None))) \
    .hears(frame(4, Detach(9, True, Error("amqp:not-found"))), replies=["4 error SenderAttach.RemoteClosedWithError amqp:not-found - -"], wrote=frame(0, Detach(0, True)))
attaching("an Attach to a coordinator").hears(frame(4, Attach("s", 9, RECEIVER, Source(), Coordinator())), wrote=frame(0, Detach(0, True, Error("amqp:not-implemented", "CoordinatorIsNotImplemented")))) \
    .hears(frame(4, Detach(9, True)), replies=["4 error SenderAttach.CoordinatorIsNotImplemented"])
attaching_receiver("an Attach of a sender without initial-delivery-count") \
    .hears(frame(4, Attach("r", 9, SENDER, Source("q"), Target())), wrote=frame(0, Detach(0, True, Error("amqp:invalid-field", "InitialDeliveryCountIsNone")))) \
    .hears(frame(4, Detach(9, True)), replies=["4 error ReceiverAttach.InitialDeliveryCountIsNone"])
attaching_receiver("an Attach of a sender without a source, and a closing Detach behind it") \
    .hears(frame(4, Attach("r", 9, SENDER, None, Target(), idc=0))) \
    .hears(frame(4, Detach(9, True)), replies=["4 error ReceiverAttach.IncomingSourceIsNone"], wrote=frame(0, Detach(0, True)))

# ---- the peer detaches, closes and ends (part 2, sections 2.6.5, 2.6.6 and 2.5.5)
for closed, word in [(None, "RemoteDetached"), (True, "RemoteClosed")]:
    sending(f"the peer detaches a link that it has with a {'closing' if closed else 'plain'} Detach").hears(frame(4, Detach(9, closed)), wrote=frame(0, Detach(0, closed))) \
        .call("send 4 text:m", f"@ error Send.LinkStateError.{word}")
    sending(f"the peer detaches it with a {'closing' if closed else 'plain'} Detach and an error").hears(frame(4, Detach(9, closed, Error("a:b", "why"))), wrote=frame(0, Detach(0, closed))) \
        .call("send 4 text:m", f"@ error Send.LinkStateError.{word}WithError a:b x776879 -")
receiving("a message that came before the peer's Detach is given all the same").hears(frame(4, Transfer(9, 0, tag(0), 0), M) + frame(4, Detach(9, True)), wrote=frame(0, Detach(0, True))) \
    .call("recv 4", f"@ delivery 0 x00000000 x{m}").call("recv 4", "@ error Recv.LinkStateError.RemoteClosed")
sending("the peer ends the session").hears(frame(4, End(Error("a:b"))), wrote=frame(0, End())) \
    .call("send 4 text:m", "@ error Send.LinkStateError.SessionStopped.RemoteEndedWithError a:b - -")
sending("the peer closes the connection").hears(frame(0, Close(Error("a:b"))), wrote=frame(0, Close())) \
    .call("send 4 text:m", "@ error Send.LinkStateError.SessionStopped.ConnectionStopped.RemoteClosedWithError a:b - -")
sending("a message for one link comes whole, while a frame for another handle ends the session") \
    .hears(frame(4, Flow(0, 2048, 0, 2048, 8, 0, 10)), wrote=ended("amqp:session:unattached-handle")) \
    .call("send 4 text:m", "@ error Send.LinkStateError.SessionStopped.EndedWithError amqp:session:unattached-handle - -")


# ---- a listener
def listener(title, accept="accept_link 2 credit=manual"):
    """As `accepting`, and 4 is the accept_link."""
    return accepting(title).call(accept, "@ pending")


def refused(title, error, condition, peer, own):
    """An Attach that is refused: the own one has no terminus of its own, and a closing Detach follows (part 2, section 2.6.3)."""
    side = "LocalReceiver" if not peer.fields[2] else "LocalSender"
    listener(title).hears(frame(4, peer), replies=[f"4 error Accept.{side}.{error}"], wrote=frame(0, own) + frame(0, Detach(0, True, Error(condition, error))))


accepting("an Attach with a handle above the handle-max with which a listener has answered", 7) \
    .hears(frame(4, Attach("t", 8, SENDER, Source(), Target("q"), idc=0)), wrote=stopped("amqp:connection:framing-error"))
refused("a listener is asked for a link to a coordinator", "CoordinatorIsNotImplemented", "amqp:not-implemented",
        Attach("t", 9, SENDER, Source(), Coordinator(), idc=0), Attach("t", 0, RECEIVER, Source(), None))
refused("a listener is asked by a sender without initial-delivery-count", "InitialDeliveryCountIsNone", "amqp:invalid-field",
        Attach("t", 9, SENDER, Source(), Target("q")), Attach("t", 0, RECEIVER, Source(), None))
refused("a listener is asked for a node that is to be made and has an address", "TargetAddressIsSomeWhenDynamicIsTrue", "amqp:invalid-field",
        Attach("t", 9, SENDER, Source(), Target("q", True), idc=0), Attach("t", 0, RECEIVER, Source(), None))
refused("a listener is asked for a source that is to be made and has an address", "SourceAddressIsSomeWhenDynamicIsTrue", "amqp:invalid-field",
        Attach("t", 9, RECEIVER, Source("q", True), Target()), Attach("t", 0, SENDER, None, Target(), idc=0))
refused("a listener is asked for a node with properties that is not to be made", "DynamicNodePropertiesIsSomeWhenDynamicIsFalse", "amqp:invalid-field",
        Attach("t", 9, SENDER, Source(), Target("q", None, Map((Sym("a"), True))), idc=0), Attach("t", 0, RECEIVER, Source(), None))
listener("a second Attach on a handle, before the first is accepted", "accept_link 2 credit=manual") \
    .hears(frame(4, Attach("t", 9, SENDER, Source(), Target("q"), idc=0)), replies=["4 receiver"], wrote=frame(0, Attach("t", 0, RECEIVER, Source(), Target("q")))) \
    .hears(frame(4, Attach("u", 9, SENDER, Source(), Target("q"), idc=0)), wrote=ended("amqp:session:handle-in-use"))
listener("a second Attach of a name in its role") \
    .hears(frame(4, Attach("t", 9, SENDER, Source(), Target("q"), idc=0)), replies=["4 receiver"], wrote=frame(0, Attach("t", 0, RECEIVER, Source(), Target("q")))) \
    .hears(frame(4, Attach("t", 8, SENDER, Source(), Target("q"), idc=0))) \
    .call("accept_link 2 credit=manual", "@ error Accept.LocalReceiver.DuplicatedLinkName")
listener("the same name in both roles is two links") \
    .hears(frame(4, Attach("t", 9, SENDER, Source(), Target("q"), idc=0)), replies=["4 receiver"], wrote=frame(0, Attach("t", 0, RECEIVER, Source(), Target("q")))) \
    .hears(frame(4, Attach("t", 8, RECEIVER, Source("q"), Target()))) \
    .call("accept_link 2", "@ sender", wrote=frame(0, Attach("t", 1, SENDER, Source("q"), Target(), idc=0)))


def main():
    print("# Frames of a foreign peer to a client with a session and a link, each with what the standard has to come of it (OASIS AMQP 1.0,")
    print("# part 2). Written by interop/foreign/cases.py: its bytes are of an encoder apart from the program.")
    for case in CASES:
        print(f"\n= {case.title}")
        print("\n".join(case.lines))
        print("->")
        print("\n".join(case.wanted))


main()
