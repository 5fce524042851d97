"""An encoder of AMQP 1.0 frames, apart from the program: canonical spellings by OASIS AMQP 1.0, parts 1 and 2."""
import struct
class Sym(str): pass
class U(int): pass       # uint
class UL(int): pass      # ulong
class US(int): pass      # ushort
class UB(int): pass      # ubyte
class D:                 # described list
    def __init__(self, code, fields): self.code, self.fields = code, fields
class Desc:
    def __init__(self, code, value): self.code, self.value = code, value
class Map:
    def __init__(self, *pairs): self.pairs = pairs
def enc(v):
    if v is None: return b"\x40"
    if v is True: return b"\x41"
    if v is False: return b"\x42"
    if isinstance(v, U):
        return b"\x43" if v == 0 else bytes([0x52, v]) if v < 256 else b"\x70" + struct.pack(">I", v)
    if isinstance(v, UL):
        return b"\x44" if v == 0 else bytes([0x53, v]) if v < 256 else b"\x80" + struct.pack(">Q", v)
    if isinstance(v, US): return b"\x60" + struct.pack(">H", v)
    if isinstance(v, UB): return bytes([0x50, v])
    if isinstance(v, Sym):
        b = v.encode(); return bytes([0xa3, len(b)]) + b if len(b) < 256 else b"\xb3" + struct.pack(">I", len(b)) + b
    if isinstance(v, str):
        b = v.encode(); return bytes([0xa1, len(b)]) + b if len(b) < 256 else b"\xb1" + struct.pack(">I", len(b)) + b
    if isinstance(v, bytes):
        return bytes([0xa0, len(v)]) + v if len(v) < 256 else b"\xb0" + struct.pack(">I", len(v)) + v
    if isinstance(v, D):
        f = list(v.fields)
        while f and f[-1] is None: f.pop()
        return b"\x00" + enc(UL(v.code)) + enc_list(f)
    if isinstance(v, Desc): return b"\x00" + enc(UL(v.code)) + enc(v.value)
    if isinstance(v, Map):
        body = b"".join(enc(x) for p in v.pairs for x in p)
        n = 2 * len(v.pairs)
        return bytes([0xc1, len(body) + 1, n]) + body if len(body) + 1 < 256 else b"\xd1" + struct.pack(">II", len(body) + 4, n) + body
    raise TypeError(v)
def enc_list(f):
    if not f: return b"\x45"
    body = b"".join(enc(x) for x in f)
    if len(body) + 1 < 256: return bytes([0xc0, len(body) + 1, len(f)]) + body
    return b"\xd0" + struct.pack(">II", len(body) + 4, len(f)) + body
def frame(channel, body=b"", payload=b""):
    if isinstance(body, D): body = enc(body)
    return (struct.pack(">IBBH", 8 + len(body) + len(payload), 2, 0, channel) + body + payload).hex()
HEADER = "414d515000010000"
def Open(id, max=262144, channels=255): return D(0x10, [id, None, U(max) if max is not None else None, US(channels) if channels is not None else None])
def Begin(remote, next=0, inw=2048, outw=2048, hmax=255): return D(0x11, [None if remote is None else US(remote), U(next), U(inw), U(outw), None if hmax is None else U(hmax)])
def Source(address=None, dynamic=None, props=None, filter=None): return D(0x28, [address, None, None, None, dynamic, props, None, filter])
def Target(address=None, dynamic=None, props=None): return D(0x29, [address, None, None, None, dynamic, props])
def Coordinator(): return D(0x30, [])
def Attach(name, handle, role, source=None, target=None, snd=None, rcv=None, idc=None, max=None):
    return D(0x12, [name, U(handle), role, None if snd is None else UB(snd), None if rcv is None else UB(rcv), source, target, None, None, None if idc is None else U(idc), None if max is None else UL(max)])
def Flow(nin, inw, nout, outw, handle=None, count=None, credit=None, available=None, drain=None, echo=None):
    o = lambda x: None if x is None else U(x)
    return D(0x13, [o(nin), U(inw), U(nout), U(outw), o(handle), o(count), o(credit), o(available), drain, echo])
def Transfer(handle, id=None, tag=None, format=None, settled=None, more=None, rcv=None, state=None, resume=None, aborted=None, batchable=None):
    o = lambda x: None if x is None else U(x)
    return D(0x14, [U(handle), o(id), tag, o(format), settled, more, None if rcv is None else UB(rcv), state, resume, aborted, batchable])
def Disposition(role, first, last=None, settled=None, state=None, batchable=None):
    return D(0x15, [role, U(first), None if last is None else U(last), settled, state, batchable])
def Detach(handle, closed=None, error=None): return D(0x16, [U(handle), closed, error])
def End(error=None): return D(0x17, [error])
def Close(error=None): return D(0x18, [error])
def Error(cond, description=None, info=None): return D(0x1d, [Sym(cond), description, info])
Accepted, Released = D(0x24, []), D(0x26, [])
def Rejected(e=None): return D(0x25, [e])
def Received(n, o): return D(0x23, [U(n), UL(o)])
def Modified(f=None, u=None): return D(0x27, [f, u])
def text(s): return enc(Desc(0x77, s))
SENDER, RECEIVER = False, True
