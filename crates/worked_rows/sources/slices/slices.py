# slices.py OUT: the class Slices, whose main prints 10, 11, 12 and so on, 90,007 steps apart, the first one in its fifth step.
# With a slice of 65,536 steps they are put one by one, behind the slices 1, 2, 3, 5 and 6.
import struct, sys
pool = []
def entry(tag, bytes_): pool.append(bytes([tag]) + bytes_); return len(pool)
def utf8(s): return entry(1, struct.pack('>H', len(s)) + s.encode())
def cls(s): return entry(7, struct.pack('>H', utf8(s)))
def member(tag, c, n, d): t = entry(12, struct.pack('>HH', utf8(n), utf8(d))); return entry(tag, struct.pack('>HH', c, t))
this, above = cls('Slices'), cls('java/lang/Object')
out = member(9, cls('java/lang/System'), 'out', 'Ljava/io/PrintStream;')
show = member(10, cls('java/io/PrintStream'), 'print', '(I)V')
code = bytes([16, 10, 60])                                        # bipush 10, istore_1
code += bytes([178]) + struct.pack('>H', out)                     # 3: getstatic System.out
code += bytes([27, 182]) + struct.pack('>H', show)                # iload_1, invokevirtual print
code += bytes([132, 1, 1, 17]) + struct.pack('>h', 30000)         # iinc 1 1, sipush 30000
code += bytes([61, 132, 2, 255, 28, 157]) + struct.pack('>h', -4) # istore_2, 17: iinc 2 -1, iload_2, ifgt 17
code += bytes([167]) + struct.pack('>h', 3 - 24)                  # 24: goto 3
main, kind, words = utf8('main'), utf8('([Ljava/lang/String;)V'), utf8('Code')
body = struct.pack('>HHI', 2, 3, len(code)) + code + struct.pack('>HH', 0, 0)
method = struct.pack('>HHHH', 9, main, kind, 1) + struct.pack('>HI', words, len(body)) + body
made = struct.pack('>IHHH', 0xCAFEBABE, 0, 49, len(pool) + 1) + b''.join(pool)
made += struct.pack('>HHHHH', 33, this, above, 0, 0) + struct.pack('>H', 1) + method + struct.pack('>H', 0)
open(sys.argv[1], 'wb').write(made)
