#!/usr/bin/env python3
"""Writes cases of a listener and of a client that run over a link whose pieces come one at each wait, with bytes of an encoder that knows
nothing of the program.

What has to come is worked out here by the rules of OASIS AMQP 1.0 and of the README ("listen and connect"). Run at the top:
interop/foreign/served.py > crates/serve_cases/data/foreign.runs
"""
import os, sys
sys.path.insert(0, os.path.dirname(os.path.abspath(__file__)))
from encoder import *

SASL_HEADER = "414d515003010000"
CREDIT = 1000


def sasl(code, fields):
    """A SASL frame (part 5, section 5.3.1)."""
    plain = bytes.fromhex(frame(0, D(code, fields)))
    return (plain[:5] + b"\x01" + plain[6:]).hex()


def array_of(symbol):
    """An array of one symbol (part 1, section 1.6.24), in its own bytes."""
    one = bytes([len(symbol)]) + symbol.encode()
    return b"\xe0" + bytes([2 + len(one), 1, 0xa3]) + one


def mechanisms(symbol):
    """The mechanisms of a listener (part 5, section 5.3.3.1): a list of one field."""
    field = array_of(symbol)
    body = b"\x00\x53\x40\xc0" + bytes([1 + len(field), 1]) + field
    return (struct.pack(">IBBH", 8 + len(body), 2, 1, 0) + body).hex()


INIT = sasl(0x41, [Sym("ANONYMOUS")])
OUTCOME = sasl(0x44, [UB(0)])
TAG = lambda number: struct.pack(">I", number)


def send(number, text="m", **more):
    return frame(0, Transfer(0, number, TAG(number), 0, False, **more), text_body(text))


def text_body(words):
    return enc(Desc(0x77, words))


def accepted(number, role=RECEIVER):
    return frame(0, Disposition(role, number, None, True, Accepted))


def client_pieces(count, name="s", target="q"):
    """What a client writes that sends so many messages, a piece between two waits."""
    return [
        SASL_HEADER, INIT, HEADER + frame(0, Open("p")), frame(0, Begin(None)), frame(0, Attach(name, 0, SENDER, Source(), Target(target), idc=0)),
        *[send(it) for it in range(count)],
        frame(0, Detach(0, True)), frame(0, End()), frame(0, Close())]


def listener_front(name="s", target="q"):
    """What the listener writes before the first message."""
    return SASL_HEADER + mechanisms("ANONYMOUS") + OUTCOME + HEADER + frame(0, Open("amqp_run")) + frame(0, Begin(0)) \
        + frame(0, Attach(name, 0, RECEIVER, Source(), Target(target))) + frame(0, Flow(0, 2048, 0, 2048, 0, 0, CREDIT))


BACK = frame(0, Detach(0, True)) + frame(0, End()) + frame(0, Close())


def listener_bytes(count):
    return listener_front() + "".join(accepted(it) for it in range(count)) + BACK


NAME, ADDRESS = "amqp_run-sender", "amqp_run"


def listener_pieces(count):
    """What a listener writes to a client that sends so many messages, a piece between two waits."""
    return [
        SASL_HEADER + mechanisms("ANONYMOUS"), OUTCOME + HEADER, frame(0, Open("p")), frame(0, Begin(0)),
        frame(0, Attach(NAME, 0, RECEIVER, Source(), Target(ADDRESS))) + frame(0, Flow(0, 2048, 0, 2048, 0, 0, CREDIT)),
        *[accepted(it) for it in range(count)],
        frame(0, Detach(0, True)), frame(0, End()), frame(0, Close())]


def client_bytes(count):
    """What the client writes."""
    return SASL_HEADER + INIT + HEADER + frame(0, Open("amqp_run")) + frame(0, Begin(None)) \
        + frame(0, Attach(NAME, 0, SENDER, Source(), Target(ADDRESS), idc=0)) + "".join(send(it) for it in range(count)) + BACK


def case(title, words, pieces, ending, wrote, sink=None, link=None):
    print(f"\n= {title}\n{words}")
    if link:
        print(f"link {link}")
    for piece in pieces:
        print(f"hears {piece}")
    print(f"->\n{ending}")
    if sink is not None:
        print(sink)
    print(f"wrote {wrote}")


def short(pieces):
    """The same pieces with the last byte missing."""
    return [*pieces[:-1], pieces[-1][:-2]]


def listens():
    for count in (0, 1, 2, 20):
        case(f"a listener is sent {count} messages", "listen", client_pieces(count), "done", listener_bytes(count), f"messages {count}")
    it = client_pieces(2)
    case("a listener is sent two messages, with as much at once as a client may send", "listen", [it[0], it[1], "".join(it[2:5]), "".join(it[5:7]), "".join(it[7:])], "done",
         listener_front() + accepted(0) + accepted(1) + frame(0, Detach(0, True)) + frame(0, End()) + frame(0, Close()), "messages 2")
    case("a connection is opened and closed at once", "listen", [it[0], it[1], it[2] + it[-1]], "done",
         SASL_HEADER + mechanisms("ANONYMOUS") + OUTCOME + HEADER + frame(0, Open("amqp_run")) + frame(0, Close()), "messages 0")
    case("a listener is sent two messages, a byte in a piece", "listen", [it[at:at + 2] for it in client_pieces(2) for at in range(0, len(it), 2)], "done", listener_bytes(2), "messages 2")
    front = listener_front() + "".join(accepted(it) for it in range(2)) + frame(0, Detach(0, True)) + frame(0, End())
    case("a listener is sent two messages, and the last byte is missing", "listen", short(client_pieces(2)), "read fault", front, link="ends")
    case("a listener is sent two messages, and nothing ends", "listen", client_pieces(2)[:-1], "write fault", front)
    case("the input of a listener ends before it begins", "listen", [], "read fault", SASL_HEADER, link="ends")
    case("the first call of the link fails", "listen", client_pieces(2), "write fault", "", link="fails=0")
    pieces = client_pieces(2)
    case("a message comes in two Transfers", "listen", [*pieces[:5], frame(0, Transfer(0, 0, TAG(0), 0, False, True), text_body("mm")[:3]),
         frame(0, Transfer(0), text_body("mm")[3:]), *pieces[-3:]], "done", listener_bytes(1), "messages 1")
    case("a message is begun and aborted, and another comes", "listen", [*pieces[:5], frame(0, Transfer(0, 0, TAG(0), 0, False, True), text_body("mm")[:3]),
         frame(0, Transfer(0, aborted=True)), send(1), *pieces[-3:]], "done", listener_front() + accepted(1) + BACK, "messages 1")
    closed = frame(0, Close(Error("a:b")))
    case("the peer closes the connection with an error", "listen", [*pieces[:7], closed], "peer fault", listener_front() + accepted(0) + accepted(1) + frame(0, Close()))
    case("the peer closes the connection alone", "listen", [*pieces[:7], pieces[-1]], "done", listener_front() + accepted(0) + accepted(1) + frame(0, Close()), "messages 2")
    case("the peer ends the session with an error", "listen", [*pieces[:7], frame(0, End(Error("a:b")))], "peer fault", listener_front() + accepted(0) + accepted(1) + frame(0, End()))
    case("a header of another protocol", "listen", ["414d515000010001"], "peer fault", SASL_HEADER)


def connects():
    for count in (0, 1, 2, 20):
        case(f"a client sends {count} messages", f"connect {count}", listener_pieces(count), "done", client_bytes(count))
    case("a client sends two messages, and hears a byte in a piece", "connect 2", [it[at:at + 2] for it in listener_pieces(2) for at in range(0, len(it), 2)], "done", client_bytes(2))
    case("a client sends two messages, and the last byte is missing", "connect 2", short(listener_pieces(2)), "read fault", client_bytes(2), link="ends")
    pieces = listener_pieces(2)
    front = client_bytes(1)[:-len(BACK)]
    case("the second message is never settled", "connect 2", pieces[:6], "write fault", client_bytes(2)[:-len(BACK)])
    case("the first message is rejected, which is an outcome", "connect 1", [*pieces[:5], frame(0, Disposition(RECEIVER, 0, None, True, Rejected(Error("a:b")))), *pieces[-3:]], "done", client_bytes(1))
    case("the peer detaches the link with an error", "connect 1", [*pieces[:5], frame(0, Detach(0, True, Error("a:b")))], "peer fault", front + frame(0, Detach(0, True)))
    case("the peer ends the session", "connect 1", [*pieces[:5], frame(0, End())], "peer fault", front + frame(0, End()))
    case("the peer closes the connection", "connect 1", [*pieces[:5], frame(0, Close())], "peer fault", front + frame(0, Close()))
    case("the peer refuses ANONYMOUS", "connect 1", [SASL_HEADER + mechanisms("PLAIN")], "peer fault", SASL_HEADER)
    case("the first call of the link fails", "connect 1", pieces, "write fault", "", link="fails=0")


print("# A listener and a client that run over a link in memory, each with what it has to come to (README, \"listen and connect\"; OASIS AMQP 1.0).")
print("# Written by interop/foreign/served.py: the bytes are of an encoder apart from the program.")
listens()
connects()
